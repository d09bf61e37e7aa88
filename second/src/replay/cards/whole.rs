//! Cards of 256 slots, and of about as many.
//! Follows document 02, request 1.

use super::{other, s};
use crate::bytes::Block;
use crate::card::{EMPTY, SLOT, SLOTS};
use crate::edges::full;
use crate::replay::script::Script;

const LAST: usize = SLOTS - 1;

pub fn write(script: &mut Script) {
    lengths(script);
    bad_slots(script);
    pairs_twice(script);
    finds(script);
    puts(script);
}

/// The card of 256 full slots with these in place of its own.
fn full_with(changes: &[(usize, Block)]) -> Vec<u8> {
    let mut card = full();
    for (place, slot) in changes {
        card[SLOT * place..SLOT * (place + 1)].copy_from_slice(slot);
    }
    card
}

fn lengths(script: &mut Script) {
    let longer = [full(), EMPTY.to_vec()].concat();
    for length in [4080, 4095, 4096, 4097, 4112] {
        script.is_good(&longer[..length]);
    }
    script.is_good(&[0; 4096]);
    script.is_good(&[0; 4112]);
    script.is_good(&[0; 8192]);
    script.is_good(&[full(), s(9, 1).to_vec()].concat());
    script.find(&longer, 1, 1);
    script.find(&longer[..4095], 1, 1);
    script.find(&longer[..4080], 8, 31);
    script.put(&longer, &s(1, 1));
    script.put(&longer, &s(9, 1));
    script.put(&longer, &EMPTY);
    script.put(&longer[..4080], &s(8, 32));
}

fn bad_slots(script: &mut Script) {
    let mut tail = s(8, 32);
    tail[15] = 1;
    let mut stray = EMPTY;
    stray[15] = 1;
    for (place, slot) in [
        (LAST, s(8, 33)),
        (LAST, tail),
        (LAST, stray),
        (128, s(0, 1)),
        (0, s(1, 0)),
    ] {
        script.is_good(&full_with(&[(place, slot)]));
    }
    script.find(&full_with(&[(LAST, stray)]), 1, 1);
    let mut last_byte = vec![0; SLOT * SLOTS];
    last_byte[SLOT * SLOTS - 1] = 1;
    script.is_good(&last_byte);
    script.put(&full_with(&[(LAST, tail)]), &s(8, 32));
}

/// The first and the last slot, and others, with the same and with other contents.
fn pairs_twice(script: &mut Script) {
    let first: Block = full()[..SLOT].try_into().expect("a slot has 16 bytes");
    for (place, slot) in [(LAST, first), (LAST, other(1, 1)), (0, other(5, 5))] {
        script.is_good(&full_with(&[(place, slot)]));
    }
    let ends = full_with(&[(LAST, other(1, 1))]);
    script.find(&ends, 1, 1);
    script.put(&ends, &s(1, 1));
    let mut sparse = vec![0; SLOT * SLOTS];
    sparse[..SLOT].copy_from_slice(&s(1, 1));
    script.is_good(&sparse);
    sparse[SLOT * LAST..].copy_from_slice(&other(1, 1));
    script.is_good(&sparse);
}

fn finds(script: &mut Script) {
    let card = full();
    for (recipe, segment) in [(1, 1), (4, 17), (8, 32), (9, 1)] {
        script.find(&card, recipe, segment);
    }
    let last_empty = full_with(&[(LAST, EMPTY)]);
    script.find(&last_empty, 0, 0);
}

fn puts(script: &mut Script) {
    let card = full();
    for record in [
        other(1, 1),
        other(4, 17),
        other(8, 32),
        s(9, 1),
        EMPTY,
        s(9, 33),
    ] {
        script.put(&card, &record);
    }
    script.put(&card, &s(1, 1)[..15]);
    for place in [0, 128, LAST] {
        script.put(&full_with(&[(place, EMPTY)]), &s(9, 1));
    }
    let middle_empty = full_with(&[(100, EMPTY), (200, EMPTY)]);
    script.put(&middle_empty, &s(9, 1));
    script.put(&middle_empty, &other(8, 32));
    script.put(&middle_empty, &s(4, 5));
    script.put(&vec![0; SLOT * SLOTS], &s(1, 1));
    script.put(&EMPTY, &card);
    script.put(&[], &[0; 8192]);
}
