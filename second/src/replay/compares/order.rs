//! By recipe, then segment: numbers next to a carry, and those that share a byte.
//! Follows document 02, request 6.

use super::{shuffled, Compares};
use crate::bytes::Block;
use crate::replay::cards::{other, s};

const RECIPES: [u16; 11] = [
    1, 2, 255, 256, 257, 511, 512, 65_279, 65_280, 65_534, 65_535,
];
const SEGMENTS: [u8; 4] = [1, 2, 31, 32];

/// Recipes that differ in the upper byte only, in the lower only, or have them exchanged.
const TWO_RECIPES: [(u16, u16); 12] = [
    (1, 257),
    (255, 511),
    (255, 65_535),
    (256, 65_280),
    (1, 2),
    (256, 257),
    (256, 511),
    (65_280, 65_535),
    (255, 256),
    (1, 256),
    (258, 513),
    (1, 65_535),
];

pub fn write(compares: &mut Compares) {
    for (low, high) in TWO_RECIPES {
        for (a, b) in [(1, 1), (1, 32), (32, 1)] {
            two(compares, s(low, a), s(high, b));
        }
    }
    for (low, high) in [(1, 2), (1, 32), (31, 32)] {
        two(compares, s(5, low), s(5, high));
        two(compares, s(low.into(), high), s(high.into(), low));
    }
    for _ in 0..5 {
        all(compares);
    }
}

/// On one card in either order, on either card, and one of them on both.
fn two(compares: &mut Compares, a: Block, b: Block) {
    compares.exactly(&[a, b].concat(), &[]);
    compares.exactly(&[], &[b, a].concat());
    compares.both_ways(&a, &b);
    compares.exactly(&[b, a].concat(), &a);
    compares.exactly(&b, &[b, a].concat());
}

/// Each recipe with each segment on neither, on one, or on both with the same or with
/// other contents.
fn all(compares: &mut Compares) {
    let random = &mut compares.random;
    let (mut first, mut second) = (Vec::new(), Vec::new());
    for recipe in RECIPES {
        for segment in SEGMENTS {
            let (a, b) = (s(recipe, segment), other(recipe, segment));
            first.extend(random.one_of(&[None, Some(a), Some(a)]));
            second.extend(random.one_of(&[None, Some(a), Some(b)]));
        }
    }
    let (first, second) = (shuffled(random, &first, 2), shuffled(random, &second, 3));
    compares.both_ways(&first, &second);
}
