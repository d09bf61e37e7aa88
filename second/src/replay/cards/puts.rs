//! Puts: namesakes, first empty slots, records of any length, and every order of refusal.
//! Follows document 02, request 1.

use super::{other, s};
use crate::bytes::Block;
use crate::card::{put, EMPTY};
use crate::replay::script::Script;

/// Lengths about that of a record, and some that merely end in it.
const LENGTHS: [usize; 13] = [0, 1, 2, 8, 14, 15, 16, 17, 31, 32, 33, 48, 272];

pub fn write(script: &mut Script) {
    namesakes(script);
    empty_slots(script);
    record_lengths(script);
    causes_together(script);
    one_after_the_other(script);
}

/// The namesake at each place, with and without an empty slot before or behind it;
/// then the same contents again.
fn namesakes(script: &mut Script) {
    let others = [EMPTY, s(5, 1), s(5, 2), EMPTY];
    for number in 0..=others.len() {
        for place in 0..=number {
            let mut slots = others[..number].to_vec();
            slots.insert(place, s(6, 1));
            let card = slots.concat();
            script.put(&card, &other(6, 1));
            script.put(&card, &s(6, 1));
            script.put(&card, &s(6, 2));
        }
    }
}

/// Each choice of empty slots among five.
fn empty_slots(script: &mut Script) {
    for filled in 0..32 {
        let slots = [0u8, 1, 2, 3, 4].map(|i| match filled >> i & 1 {
            1 => s(4, 1 + i),
            _ => EMPTY,
        });
        script.put(&slots.concat(), &s(5, 1));
    }
}

fn record_lengths(script: &mut Script) {
    let filled = [s(1, 1); 17].concat();
    let empty = vec![0; filled.len()];
    for length in LENGTHS {
        for card in cards() {
            script.put(&card, &filled[..length]);
            script.put(&card, &empty[..length]);
        }
        let behind = [&s(1, 1), &empty[..length]].concat();
        script.put(&EMPTY, &behind);
        script.put(&s(1, 1), &behind);
    }
}

/// With room, with the namesake, with neither, of no bytes, bad for each cause.
fn cards() -> Vec<Vec<u8>> {
    let slots: [&[Block]; 7] = [
        &[s(2, 1), EMPTY],
        &[EMPTY, other(1, 1)],
        &[s(2, 1), s(2, 2)],
        &[],
        &[s(1, 33), EMPTY],
        &[s(1, 1), other(1, 1), EMPTY],
        &[other(1, 1), s(2, 1)],
    ];
    let mut cards: Vec<Vec<u8>> = slots.iter().map(|slots| slots.concat()).collect();
    cards.push(vec![0; 17]);
    cards.push(other(1, 1)[..15].to_vec());
    cards
}

/// Good records with and without a namesake, and bad ones, on every card.
fn causes_together(script: &mut Script) {
    let mut tail = s(1, 1);
    tail[15] = 1;
    let mut target = s(1, 1);
    target[4..6].copy_from_slice(&13_501u16.to_be_bytes());
    let records: [&[u8]; 9] = [
        &s(1, 1),
        &s(2, 2),
        &s(3, 3),
        &EMPTY,
        &s(0, 1),
        &s(1, 0),
        &s(1, 33),
        &tail,
        &target,
    ];
    for card in cards() {
        for record in records {
            script.put(&card, record);
        }
    }
}

/// Each put on the card that the one before left, until nothing fits and on.
fn one_after_the_other(script: &mut Script) {
    let pairs = [
        (1, 1),
        (2, 1),
        (1, 1),
        (1, 2),
        (2, 2),
        (1, 2),
        (3, 1),
        (2, 1),
    ];
    for slots in 0..6 {
        let mut card = vec![0; 16 * slots];
        for (number, (recipe, segment)) in pairs.into_iter().enumerate() {
            let record = match number % 2 {
                0 => s(recipe, segment),
                _ => other(recipe, segment),
            };
            script.put(&card, &record);
            card = put(&card, &record).card;
            script.find(&card, recipe.into(), segment.into());
        }
        script.is_good(&card);
    }
}
