//! Cards at random: few pairs with few contents, so that they overlap, then any; some
//! changed from each other, some damaged.
//! Follows document 02, request 6.

use super::{listed, shuffled, Compares};
use crate::bytes::part;
use crate::card::{put, Record, SLOT};
use crate::random::Random;
use crate::replay::cards::any::{any_record, damaged};

const RECIPES: [u16; 4] = [1, 2, 256, 257];
const SEGMENTS: [u8; 3] = [1, 2, 32];

pub fn write(compares: &mut Compares) {
    for _ in 0..200 {
        few_pairs(compares);
    }
    for _ in 0..50 {
        one_from_the_other(compares);
    }
    for _ in 0..8 {
        many_slots(compares);
    }
}

fn any_of_few(random: &mut Random) -> Record {
    Record {
        recipe: random.one_of(&RECIPES),
        segment: random.one_of(&SEGMENTS),
        kind: random.one_of(&[1, 3]),
        target: 900,
        rate: random.one_of(&[60, 316]),
        hold: 5,
    }
}

fn any_of_both(random: &mut Random) -> Record {
    match random.below(2) {
        0 => any_record(random),
        _ => any_of_few(random),
    }
}

/// So many puts on as many slots; where a namesake was replaced, one stays empty.
fn any_card(random: &mut Random, puts: usize, any: fn(&mut Random) -> Record) -> Vec<u8> {
    let mut card = vec![0; SLOT * puts];
    for _ in 0..puts {
        card = put(&card, &any(random).bytes()).card;
    }
    let slots: Vec<_> = (0..puts).map(|place| part(&card, place)).collect();
    shuffled(random, &slots, 0)
}

fn few_pairs(compares: &mut Compares) {
    let random = &mut compares.random;
    let [first, second] = [random.below(12), random.below(12)];
    let first = any_card(random, first, any_of_few);
    let second = any_card(random, second, any_of_few);
    let (first, second) = match random.below(6) {
        0 => (damaged(random, first), second),
        1 => (first, damaged(random, second)),
        _ => (first, second),
    };
    in_any_room(compares, &first, &second);
}

/// Exact, a byte or a record less, or more.
fn in_any_room(compares: &mut Compares, first: &[u8], second: &[u8]) {
    let exact = listed(first, second);
    let random = &mut compares.random;
    let space = match random.below(6) {
        0 | 1 => exact.saturating_sub(1 + random.below(4)),
        2 => exact + random.below(9),
        3 => random.below(4 * 12),
        _ => exact,
    };
    compares.in_room(first, second, space);
}

/// Up to three puts on a copy, one after the other.
fn one_from_the_other(compares: &mut Compares) {
    let random = &mut compares.random;
    let puts = 1 + random.below(11);
    let first = any_card(random, puts, any_of_few);
    let mut second = first.clone();
    for _ in 0..1 + random.below(3) {
        second = put(&second, &any_of_few(random).bytes()).card;
    }
    in_any_room(compares, &first, &second);
}

fn many_slots(compares: &mut Compares) {
    let random = &mut compares.random;
    let [first, second] = [12, 12].map(|puts| puts + random.below(28));
    let first = any_card(random, first, any_of_both);
    let second = any_card(random, second, any_of_both);
    in_any_room(compares, &first, &second);
}
