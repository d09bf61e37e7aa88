//! Cards where a pair stands twice: next to each other, far apart, first and last, with
//! the same and with other contents.
//! Follows document 02, requests 1 and 6.

use super::{filled, Compares, LONGEST};
use crate::bytes::Block;
use crate::card::{EMPTY, SLOTS};
use crate::replay::cards::any::any_record;

pub fn write(compares: &mut Compares) {
    for slots in 2..=5 {
        let card = filled(&mut compares.random, slots);
        for last in 1..slots {
            for first in 0..last {
                every_way(compares, &card, first, last);
            }
        }
    }
    let card = filled(&mut compares.random, 20);
    for (first, last) in [(0, 1), (9, 10), (18, 19), (1, 18), (0, 19)] {
        every_way(compares, &card, first, last);
    }
    on_whole_cards(compares);
}

/// The slot at `last` has the pair of the one at `first`, and these contents.
fn twice(card: &[Block], first: usize, last: usize, contents: Block) -> Vec<u8> {
    let mut card = card.to_vec();
    let pair = card[first];
    card[last][..3].copy_from_slice(&pair[..3]);
    card[last][3..].copy_from_slice(&contents[3..]);
    card.concat()
}

/// The same contents and others, on the first card and on the second, with room and with
/// none.
fn every_way(compares: &mut Compares, card: &[Block], first: usize, last: usize) {
    let good = [card[first], EMPTY, card[last]].concat();
    let other = any_record(&mut compares.random).bytes();
    let enough = 4 * card.len() + 8;
    for (contents, spaces) in [(card[first], [enough, 0]), (other, [0, enough])] {
        let twice = twice(card, first, last, contents);
        compares.in_room(&twice, &good, spaces[0]);
        compares.in_room(&good, &twice, spaces[1]);
    }
}

fn on_whole_cards(compares: &mut Compares) {
    let card = filled(&mut compares.random, SLOTS);
    let last = SLOTS - 1;
    let other = any_record(&mut compares.random).bytes();
    let ends = twice(&card, 0, last, card[0]);
    compares.in_room(&ends, &card[last], LONGEST);
    compares.in_room(&card[last], &twice(&card, 0, last, other), LONGEST);
    compares.in_room(&[], &twice(&card, last - 1, last, other), LONGEST);
}
