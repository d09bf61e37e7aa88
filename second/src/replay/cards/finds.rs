//! Finds: present and absent, under zeros, and under numbers that are too wide.
//! Follows document 02, request 1.

use super::{other, s};
use crate::card::EMPTY;
use crate::replay::script::Script;

pub fn write(script: &mut Script) {
    patterns(script);
    wide_numbers(script);
}

/// Three slots, each filled or empty: every find, and a put for each that's missing.
fn patterns(script: &mut Script) {
    for filled in 0..8 {
        let slots = [0u8, 1, 2].map(|i| match filled >> i & 1 {
            1 => s(3, 1 + i),
            _ => EMPTY,
        });
        let card = slots.concat();
        script.is_good(&card);
        for (recipe, segment) in [(3, 1), (3, 2), (3, 3), (3, 4), (4, 1)] {
            script.find(&card, recipe, segment);
        }
        for (recipe, segment) in [(0, 0), (0, 1), (3, 0), (0, 3)] {
            script.find(&card, recipe, segment);
        }
        for segment in 1..=4 {
            script.put(&card, &other(3, segment));
        }
    }
}

/// Numbers that merely end in one that is there, alone and with one that is there,
/// and pairs that are one number with one that is there when written together.
fn wide_numbers(script: &mut Script) {
    let card = [s(1, 1), EMPTY, s(65_535, 32)].concat();
    for (recipe, segment) in [(1, 1), (65_535, 32)] {
        script.find(&card, recipe, segment);
        for shift in [16, 17, 24, 31, 32, 48, 56, 63] {
            script.find(&card, (1 << shift) + recipe, segment);
        }
        for shift in [8, 9, 16, 31, 32, 48, 56, 63] {
            script.find(&card, recipe, (1 << shift) + segment);
            script.find(&card, (1 << shift) + recipe, (1 << shift) + segment);
        }
        script.find(&card, 0, recipe << 8 | segment);
        script.find(&card, recipe - 1, 256 + segment);
        script.find(&card, recipe << 8 | segment, 0);
    }
    let ends = [0, 1 << 16, 1 << 32, 1 << 63, u64::MAX];
    for recipe in ends {
        for segment in ends {
            script.find(&card, recipe, segment);
        }
    }
}
