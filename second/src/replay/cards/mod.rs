//! The cards part of the script: good, find and put, on good cards and bad ones.
//! Follows document 02, request 1.

pub mod any;
pub mod fields;
mod finds;
mod pairs;
mod puts;
mod whole;

use super::script::Script;
use crate::bytes::Block;
use crate::card::{Record, EMPTY};
use crate::edges::standard;

pub fn write(script: &mut Script) {
    lengths(script);
    fields::write(script);
    pairs::write(script);
    finds::write(script);
    puts::write(script);
    whole::write(script);
    any::write(script);
}

pub fn s(recipe: u16, segment: u8) -> Block {
    standard(recipe, segment).bytes()
}

/// The same pair with every other number changed.
pub fn other(recipe: u16, segment: u8) -> Block {
    let record = Record {
        kind: 3,
        target: 255,
        rate: 0,
        hold: 65_535,
        ..standard(recipe, segment)
    };
    record.bytes()
}

/// Every length up to three slots and a byte, cut from filled and from empty slots.
fn lengths(script: &mut Script) {
    let filled = [s(1, 1), s(1, 2), s(2, 1), s(2, 2)].concat();
    let empty = [EMPTY; 4].concat();
    for length in 0..50 {
        let card = &filled[..length];
        script.is_good(card);
        script.find(card, 1, 1);
        script.put(card, &other(1, 1));
        script.put(card, &s(3, 3));
        script.is_good(&empty[..length]);
        script.put(&empty[..length], &s(3, 3));
    }
}
