//! Cards at random.

use super::slot;
use second::random::Random;
use std::collections::BTreeSet;

/// A good card of fewer slots than `bound`, one in five of them empty.
pub fn any_card(random: &mut Random, bound: usize) -> Vec<u8> {
    let mut pairs = BTreeSet::new();
    let mut slots = Vec::new();
    for _ in 0..random.below(bound) {
        let pair = (1 + random.below(9) as u16, 1 + random.below(32) as u8);
        let empty = random.below(5) == 0 || !pairs.insert(pair);
        slots.push(match empty {
            true => vec![0; 16],
            false => any_slot(random, pair),
        });
    }
    slots.concat()
}

fn any_slot(random: &mut Random, (recipe, segment): (u16, u8)) -> Vec<u8> {
    let kind = 1 + random.below(3) as u8;
    let target = random.below(13_501) as u16;
    let rate = random.below(65_536) as u16;
    let hold = random.below(65_536) as u16;
    slot(recipe, segment, kind, target, rate, hold)
}
