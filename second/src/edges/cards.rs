//! The edge cases of recipe cards.
//! Follows document 02, request 1.

use super::hex;
use crate::bytes::Block;
use crate::card::{find, good, put, Record, EMPTY, SLOT, SLOTS};
use crate::refusal::Answer;

/// A record that no rule is close to.
pub fn standard(recipe: u16, segment: u8) -> Record {
    Record {
        recipe,
        segment,
        kind: 2,
        target: 12_000,
        rate: 600,
        hold: 30,
    }
}

/// The card of 256 filled slots: recipes 1 to 8, each with segments 1 to 32.
pub fn full() -> Vec<u8> {
    (0..SLOTS).flat_map(|i| full_slot(i as u16)).collect()
}

fn full_slot(i: u16) -> Block {
    let record = Record {
        recipe: 1 + i / 32,
        segment: 1 + (i % 32) as u8,
        kind: 1 + (i % 3) as u8,
        target: 1000 + i,
        rate: 600,
        hold: 10,
    };
    record.bytes()
}

pub fn cards() -> String {
    let cases = [lengths(), pairs(), bounds(), kinds_and_the_rest(), puts()];
    cases.concat().iter().map(|case| &case.text[..]).collect()
}

/// A case while it is written: its card, and its lines so far.
#[derive(Clone)]
struct Case {
    card: Vec<u8>,
    text: String,
}

impl Case {
    fn new(name: &str, card: &[u8]) -> Case {
        let yes_or_no = if good(card) { "yes" } else { "no" };
        Case {
            card: card.to_vec(),
            text: format!("{name}: good {yes_or_no}\n"),
        }
    }

    fn find(mut self, recipe: u64, segment: u64) -> Case {
        let found = match find(&self.card, recipe, segment) {
            [] => "nothing".to_string(),
            slot => hex(slot),
        };
        self.text += &format!("  find {recipe} {segment}: {found}\n");
        self
    }

    fn put(mut self, record: &[u8]) -> Case {
        let back = put(&self.card, record);
        let number = back.answer.number();
        let outcome = match back.answer {
            Answer::Done => place_in_words(&back.card, record),
            _ if back.card == self.card => "all as it was".to_string(),
            _ => "changed though refused".to_string(),
        };
        self.text += &format!("  put {}: answer {number}, {outcome}\n", hex(record));
        self
    }
}

/// The card after an accepted put is good, so no other slot has these bytes.
fn place_in_words(card: &[u8], record: &[u8]) -> String {
    let mut slots = card.chunks(SLOT).zip(1..);
    let place = slots.find(|(slot, _)| *slot == record);
    place.map_or("lost".to_string(), |(slot, number)| {
        format!("slot {number} is {}", hex(slot))
    })
}

fn s(recipe: u16, segment: u8) -> Block {
    standard(recipe, segment).bytes()
}

fn lengths() -> Vec<Case> {
    let too_long = [full(), EMPTY.to_vec()].concat();
    vec![
        Case::new("no bytes", &[]).find(1, 1).put(&s(1, 1)),
        Case::new("256 full slots", &full())
            .find(1, 1)
            .find(8, 32)
            .find(9, 1)
            .put(&s(9, 1))
            .put(&s(8, 32)),
        Case::new("4112 bytes", &too_long).find(1, 1).put(&s(1, 1)),
        Case::new("15 bytes", &s(1, 1)[..15])
            .find(1, 1)
            .put(&s(1, 1)),
    ]
}

fn pairs() -> Vec<Case> {
    let other = Record {
        kind: 1,
        target: 500,
        rate: 0,
        hold: 0,
        ..standard(1, 1)
    };
    let twice = [s(1, 1), EMPTY, other.bytes()].concat();
    let once = [s(1, 1), s(1, 2), s(2, 1)].concat();
    vec![
        Case::new("a pair twice", &twice).find(1, 1).put(&s(1, 2)),
        Case::new("the same pair in no other slot", &once)
            .find(1, 2)
            .find(2, 1)
            .find(2, 2),
    ]
}

fn with_target(target: u16) -> Block {
    let kind = 1;
    let record = Record {
        kind,
        target,
        ..standard(1, 1)
    };
    record.bytes()
}

fn bounds() -> Vec<Case> {
    let target = |target: u16| {
        let name = format!("target {target}");
        Case::new(&name, &with_target(target)).find(1, 1)
    };
    let segment = |segment: u8| {
        let name = format!("segment {segment}");
        Case::new(&name, &s(1, segment)).find(1, segment.into())
    };
    vec![
        target(13_500),
        target(13_501),
        segment(0),
        segment(1),
        segment(32),
        segment(33),
        Case::new("recipe 0", &s(0, 1)).find(0, 1),
        Case::new("recipe 65535", &s(65_535, 1))
            .find(65_535, 1)
            .find(131_071, 1),
    ]
}

fn kinds_and_the_rest() -> Vec<Case> {
    let kind = |kind: u8| {
        let record = Record {
            kind,
            ..standard(1, 1)
        };
        Case::new(&format!("kind {kind}"), &record.bytes()).find(1, 1)
    };
    let mut tail = s(1, 1);
    tail[15] = 1;
    let highest = Record {
        kind: 3,
        target: 0,
        rate: 65_535,
        hold: 65_535,
        ..standard(1, 1)
    };
    vec![
        kind(0),
        kind(3),
        kind(4),
        Case::new("a tail byte of 1", &tail).find(1, 1),
        Case::new("a rate and a hold of 65535", &highest.bytes()).find(1, 1),
    ]
}

fn puts() -> Vec<Case> {
    let namesake = Record {
        kind: 3,
        target: 200,
        rate: 50,
        hold: 0,
        ..standard(1, 1)
    };
    vec![
        Case::new("an empty slot", &EMPTY)
            .find(0, 0)
            .find(0, 1)
            .put(&s(1, 1))
            .put(&EMPTY)
            .put(&s(1, 1)[..15])
            .put(&with_target(13_501)),
        Case::new(
            "a namesake behind an empty slot",
            &[EMPTY, s(1, 1)].concat(),
        )
        .find(1, 1)
        .put(&namesake.bytes())
        .put(&s(1, 2)),
        Case::new(
            "a bad slot behind a good one",
            &[s(1, 1), s(1, 33)].concat(),
        )
        .find(1, 1)
        .put(&s(1, 1))
        .put(&EMPTY),
    ]
}
