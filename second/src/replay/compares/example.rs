//! The example of the request: in rooms about its list, exchanged, in other orders.
//! Follows document 02, request 6.

use super::Compares;
use crate::bytes::Block;
use crate::card::{Record, EMPTY};
use crate::edges::standard;
use crate::replay::cards::s;

pub fn write(compares: &mut Compares) {
    let other_target = Record {
        target: 11_000,
        ..standard(1, 2)
    };
    let first = [s(1, 1), s(1, 2)];
    let second = [other_target.bytes(), s(2, 1)];
    rooms(compares, &first.concat(), &second.concat());
    compares.in_rooms(&second.concat(), &first.concat());
    for first in orders(first) {
        let second = orders(second)[compares.random.below(8)].clone();
        compares.both_ways(&first, &second);
    }
}

/// Every room up to five records, and rooms that merely end in the length of the list
/// or in a byte less.
fn rooms(compares: &mut Compares, first: &[u8], second: &[u8]) {
    for space in (0..=20).chain([255, 256, 267, 268, 2048, 8192]) {
        compares.in_room(first, second, space);
    }
}

/// Both orders of the two, without an empty slot and with one at each place.
fn orders([a, b]: [Block; 2]) -> Vec<Vec<u8>> {
    let mut cards = Vec::new();
    for [a, b] in [[a, b], [b, a]] {
        cards.extend([
            [a, b].concat(),
            [EMPTY, a, b].concat(),
            [a, EMPTY, b].concat(),
            [a, b, EMPTY].concat(),
        ]);
    }
    cards
}
