//! Cards shown, good and bad.
//! Follows the page on the bench, 'card show'.

use super::any::any_card;
use super::{lines, run, slot, text, BAD_CARD};
use second::card::good;
use second::random::Random;

fn standard(recipe: u16, segment: u8) -> Vec<u8> {
    slot(recipe, segment, 1, 6000, 1500, 0)
}

#[track_caller]
fn is_bad(card: &[u8], broken: &[&str]) {
    let outcome = run(&["show", "C"], &[("C", card)]);
    assert_eq!(String::from_utf8(outcome.out).unwrap(), lines(broken));
    assert_eq!((&outcome.said[..], outcome.status), (BAD_CARD, 1));
}

#[test]
fn the_card_of_the_page() {
    let card = [
        slot(1, 1, 1, 6000, 1500, 0),
        slot(1, 2, 1, 12_700, 3000, 12),
        slot(7, 1, 1, 6000, 0, 0),
    ];
    assert_eq!(
        text(&["show", "C"], &[("C", &card.concat())]),
        lines(&[
            "recipe 1: 6 h 18 min from 20 degrees",
            "  segment 1: climb to 600.0 degrees at 150.0 an hour",
            "  segment 2: climb to 1270.0 degrees at 300.0 an hour, hold 12 min",
            "recipe 7: how long it takes cannot be said: segment 1 has no rate",
            "  segment 1: climb to 600.0 degrees at no set rate",
        ])
    );
}

#[test]
fn a_good_card_by_recipe_then_segment() {
    let card = [
        slot(7, 1, 1, 6000, 0, 0),
        vec![0; 16],
        slot(1, 32, 2, 12_700, 0, 5),
        slot(1, 2, 1, 12_700, 3000, 12),
        slot(300, 9, 3, 0, 400, 0),
        slot(1, 1, 1, 6000, 1500, 0),
    ];
    assert_eq!(
        text(&["show", "C"], &[("C", &card.concat())]),
        lines(&[
            "recipe 1: 6 h 23 min from 20 degrees",
            "  segment 1: climb to 600.0 degrees at 150.0 an hour",
            "  segment 2: climb to 1270.0 degrees at 300.0 an hour, hold 12 min",
            "  segment 32: hold at 1270.0 degrees for 5 min",
            "recipe 7: how long it takes cannot be said: segment 1 has no rate",
            "  segment 1: climb to 600.0 degrees at no set rate",
            "recipe 300: 0 h 30 min from 20 degrees",
            "  segment 9: drop to 0.0 degrees at 40.0 an hour",
        ])
    );
}

#[test]
fn a_card_without_records_is_empty() {
    for length in [0, 16, 4096] {
        assert_eq!(
            text(&["show", "C"], &[("C", &vec![0; length])]),
            "the card is empty\n"
        );
    }
}

#[test]
fn a_wrong_length() {
    is_bad(
        &[0; 33],
        &["the card has 33 bytes, which is no multiple of 16"],
    );
    is_bad(&[1], &["the card has 1 bytes, which is no multiple of 16"]);
    is_bad(
        &[0; 4112],
        &["the card has 4112 bytes, and at most 4096 have room"],
    );
    is_bad(
        &[0; 4100],
        &[
            "the card has 4100 bytes, which is no multiple of 16",
            "the card has 4100 bytes, and at most 4096 have room",
        ],
    );
    for length in [4113, 4128, 9999] {
        is_bad(
            &vec![0; length],
            &["the card has more than 4112 bytes, and at most 4096 have room"],
        );
    }
}

#[test]
fn only_the_first_256_slots_and_only_whole_ones_are_looked_at() {
    let bad = slot(0, 1, 1, 0, 0, 0);
    let cut = [standard(1, 1), bad[..15].to_vec()].concat();
    is_bad(&cut, &["the card has 31 bytes, which is no multiple of 16"]);
    let long = [vec![0; 255 * 16], bad.clone(), bad].concat();
    is_bad(
        &long,
        &[
            "the card has 4112 bytes, and at most 4096 have room",
            "slot 256: recipe 0 is not from 1 to 65535",
        ],
    );
    let twice = [
        vec![0; 254 * 16],
        standard(1, 1),
        standard(1, 1),
        standard(1, 1),
    ]
    .concat();
    is_bad(
        &twice,
        &[
            "the card has 4112 bytes, and at most 4096 have room",
            "slot 256: recipe 1 segment 1 stands in slot 255 already",
        ],
    );
}

/// The slot as the third of a card, with what is said of it.
#[track_caller]
fn breaks(bad: &[u8], rules: &[&str]) {
    let card = [&standard(1, 1)[..], &[0; 16], bad].concat();
    let named: Vec<String> = rules.iter().map(|rule| format!("slot 3: {rule}")).collect();
    let named: Vec<&str> = named.iter().map(String::as_str).collect();
    is_bad(&card, &named);
}

#[test]
fn every_rule_that_a_slot_breaks_in_order() {
    let mut all = slot(0, 33, 4, 14_000, 0, 0);
    all[15] = 1;
    let rules = [
        "recipe 0 is not from 1 to 65535",
        "segment 33 is not from 1 to 32",
        "kind 4 is none of 1 climb, 2 hold and 3 drop",
        "target 1400.0 is over 1350.0",
        "a byte behind the hold is not zero",
    ];
    breaks(&all, &rules);
    let rules = [
        "recipe 0 is not from 1 to 65535",
        "segment 0 is not from 1 to 32",
        "kind 0 is none of 1 climb, 2 hold and 3 drop",
    ];
    breaks(&slot(0, 0, 0, 0, 0, 1), &rules);
}

#[test]
fn each_rule_alone() {
    for (bad, rule) in [
        (slot(0, 1, 1, 0, 0, 0), "recipe 0 is not from 1 to 65535"),
        (slot(2, 0, 1, 0, 0, 0), "segment 0 is not from 1 to 32"),
        (slot(2, 255, 1, 0, 0, 0), "segment 255 is not from 1 to 32"),
        (
            slot(2, 1, 0, 0, 0, 0),
            "kind 0 is none of 1 climb, 2 hold and 3 drop",
        ),
        (
            slot(2, 1, 255, 0, 0, 0),
            "kind 255 is none of 1 climb, 2 hold and 3 drop",
        ),
        (slot(2, 1, 2, 13_501, 0, 0), "target 1350.1 is over 1350.0"),
        (slot(2, 1, 2, 65_535, 0, 0), "target 6553.5 is over 1350.0"),
    ] {
        breaks(&bad, &[rule]);
    }
    for place in 10..16 {
        let mut behind = standard(2, 1);
        behind[place] = 0x80;
        breaks(&behind, &["a byte behind the hold is not zero"]);
    }
}

#[test]
fn a_pair_that_stands_twice() {
    let bad = slot(1, 2, 9, 0, 0, 0);
    let card = [
        bad.clone(),
        standard(1, 1),
        vec![0; 16],
        standard(1, 2),
        standard(1, 1),
        bad,
        standard(1, 2),
        standard(1, 2),
    ];
    is_bad(
        &card.concat(),
        &[
            "slot 1: kind 9 is none of 1 climb, 2 hold and 3 drop",
            "slot 5: recipe 1 segment 1 stands in slot 2 already",
            "slot 6: kind 9 is none of 1 climb, 2 hold and 3 drop",
            "slot 7: recipe 1 segment 2 stands in slot 4 already",
            "slot 8: recipe 1 segment 2 stands in slot 4 already",
        ],
    );
}

#[test]
fn a_card_is_bad_exactly_when_a_rule_is_named() {
    let mut random = Random::seeded(72);
    for _ in 0..2000 {
        let mut card = any_card(&mut random, 12);
        for _ in 0..random.below(3).min(card.len()) {
            let place = random.below(card.len());
            card[place] = random.one_of(&[0, 1, 2, 3, 4, 33, 255]);
        }
        let outcome = run(&["show", "C"], &[("C", &card)]);
        let named = outcome.out.starts_with(b"slot ");
        assert_eq!(
            (named, outcome.status),
            (!good(&card), u8::from(!good(&card)))
        );
    }
}
