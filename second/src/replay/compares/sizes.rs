//! Cards of few and of many slots: copies, shuffles, copies with one put, and cards with
//! some slots more. Long ones stand in few calls.
//! Follows document 02, request 6.

use super::{filled, shuffled, Compares};
use crate::bytes::Block;
use crate::card::{put, SLOTS};
use crate::replay::cards::any::any_record;

const SHORT: [usize; 5] = [0, 1, 2, 3, 16];
const SIZES: [usize; 8] = [0, 1, 2, 3, 16, 64, 255, 256];

pub fn write(compares: &mut Compares) {
    for slots in SHORT {
        let card = filled(&mut compares.random, slots);
        let changed = one_put(compares, &card);
        compares.in_rooms(&card.concat(), &card.concat());
        compares.in_rooms(&card.concat(), &changed);
        compares.in_rooms(&changed, &card.concat());
        another_order(compares, &card);
        a_new_pair(compares, &card);
    }
    long(compares);
    for two in SIZES.windows(2) {
        some_slots_more(compares, two[0], two[1]);
    }
    nothing_in_common(compares);
}

fn long(compares: &mut Compares) {
    let [of_64, of_255, of_256] = [64, 255, 256].map(|n| filled(&mut compares.random, n));
    for card in [&of_64, &of_256] {
        let changed = one_put(compares, card);
        compares.exactly(&card.concat(), &card.concat());
        compares.exactly(&changed, &card.concat());
    }
    for card in [&of_64, &of_255] {
        another_order(compares, card);
        a_new_pair(compares, card);
    }
}

/// A copy on which other contents were put for a pair that is there, if one is.
fn one_put(compares: &mut Compares, card: &[Block]) -> Vec<u8> {
    let mut record = any_record(&mut compares.random).bytes();
    if !card.is_empty() {
        let namesake = compares.random.one_of(card);
        record[..3].copy_from_slice(&namesake[..3]);
    }
    put(&card.concat(), &record).card
}

/// Among as many empty slots as there is room for, up to three.
fn another_order(compares: &mut Compares, card: &[Block]) {
    let empty = (SLOTS - card.len()).min(3);
    let shuffled = shuffled(&mut compares.random, card, empty);
    compares.exactly(&card.concat(), &shuffled);
}

/// Put on a copy that has an empty slot for it.
fn a_new_pair(compares: &mut Compares, card: &[Block]) {
    let record = any_record(&mut compares.random).bytes();
    let card = shuffled(&mut compares.random, card, 1);
    compares.exactly(&card, &put(&card, &record).card);
}

/// The card of so many slots, and it with others before and behind.
fn some_slots_more(compares: &mut Compares, slots: usize, more: usize) {
    let longer = filled(&mut compares.random, more);
    let from = (more - slots) / 2;
    let shorter = longer[from..from + slots].concat();
    compares.exactly(&longer.concat(), &shorter);
    if SHORT.contains(&more) {
        compares.in_rooms(&shorter, &longer.concat());
    }
}

fn nothing_in_common(compares: &mut Compares) {
    for slots in SHORT {
        for others in SHORT {
            let first = filled(&mut compares.random, slots).concat();
            let second = filled(&mut compares.random, others).concat();
            compares.exactly(&first, &second);
        }
    }
}
