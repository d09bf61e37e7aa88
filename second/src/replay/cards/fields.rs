//! Slots and records with each field at its bounds and beyond, and stray bytes.
//! Follows document 02, request 1.

use super::{other, s};
use crate::bytes::Block;
use crate::card::{Record, EMPTY, SLOT};
use crate::edges::standard;
use crate::replay::script::Script;

const RECIPE: u16 = 7;
const SEGMENT: u8 = 7;

pub fn write(script: &mut Script) {
    for slot in slots() {
        among_filled(script, slot);
        to_be_put(script, slot);
    }
    stray_bytes(script);
}

/// The standard record of recipe 7 and segment 7 with one field changed, or with rate
/// and hold at their ends for a kind.
pub fn slots() -> Vec<Block> {
    let middle = standard(RECIPE, SEGMENT);
    let recipes = [0, 1, 255, 256, 65_535].map(|recipe| Record { recipe, ..middle });
    let segments = [0, 1, 31, 32, 33, 64, 128, 255].map(|segment| Record { segment, ..middle });
    let kinds = [0, 1, 2, 3, 4, 128, 255].map(|kind| Record { kind, ..middle });
    let targets = [0, 255, 256, 13_499, 13_500, 13_501, 13_568, 48_180, 65_535]
        .map(|target| Record { target, ..middle });
    let lists = [&recipes[..], &segments, &kinds, &targets, &extremes()];
    let records = lists.concat();
    let mut slots: Vec<Block> = records.into_iter().map(Record::bytes).collect();
    slots.extend(tails());
    slots
}

/// No rate and no hold is too low or too high, on any kind.
fn extremes() -> Vec<Record> {
    let mut records = Vec::new();
    for kind in 1..=3 {
        for (rate, hold) in [(0, 0), (0, 65_535), (65_535, 0), (65_535, 65_535)] {
            records.push(Record {
                kind,
                rate,
                hold,
                ..standard(RECIPE, SEGMENT)
            });
        }
    }
    records
}

/// Each of the bytes 10 to 15 not zero.
fn tails() -> Vec<Block> {
    let mut slots = Vec::new();
    for place in 10..SLOT {
        for byte in [1, 128] {
            let mut slot = s(RECIPE, SEGMENT);
            slot[place] = byte;
            slots.push(slot);
        }
    }
    slots
}

/// The recipe and the segment of a slot.
fn pair(slot: Block) -> (u16, u8) {
    (u16::from_be_bytes([slot[0], slot[1]]), slot[2])
}

/// As the first, a middle and the last slot of a card that is else good.
fn among_filled(script: &mut Script, slot: Block) {
    let (recipe, segment) = pair(slot);
    for place in 0..3 {
        let mut slots = vec![s(9, 9), s(9, 10)];
        slots.insert(place, slot);
        let card = slots.concat();
        script.is_good(&card);
        script.find(&card, recipe.into(), segment.into());
        script.find(&card, 9, 10);
        script.put(&card, &other(9, 9));
    }
}

/// Put where there is an empty slot, where there is a namesake too, where there is
/// neither, and on a bad card.
fn to_be_put(script: &mut Script, slot: Block) {
    let (recipe, segment) = pair(slot);
    let namesake = match (recipe, segment) {
        (1..=65_535, 1..=32) => other(recipe, segment),
        _ => other(RECIPE, SEGMENT),
    };
    for slots in [
        [s(9, 9), EMPTY, EMPTY],
        [EMPTY, s(9, 9), namesake],
        [s(9, 9), s(9, 10), s(9, 11)],
        [s(9, 33), namesake, EMPTY],
    ] {
        script.put(&slots.concat(), &slot);
    }
}

/// A slot with only one byte that isn't zero, among empty ones, and put as a record.
fn stray_bytes(script: &mut Script) {
    for place in 0..3 * SLOT {
        let mut card = [EMPTY; 3].concat();
        card[place] = 255;
        script.is_good(&card);
        card[place] = 1;
        script.is_good(&card);
        script.find(&card, 0, 0);
        script.put(&card, &s(1, 1));
    }
    for place in 0..SLOT {
        for byte in [1, 255] {
            let mut record = EMPTY;
            record[place] = byte;
            script.put(&[EMPTY; 2].concat(), &record);
        }
    }
}
