//! Two good cards compared directly: every recipe that occurs with every segment, looked
//! for on either card from the front.
//! Follows document 02, request 6.

use std::collections::BTreeSet;

fn slot_of(card: &[u8], recipe: u16, segment: u8) -> Option<&[u8]> {
    let [high, low] = recipe.to_be_bytes();
    card.chunks(16)
        .find(|slot| slot[..3] == [high, low, segment])
}

fn mark(first: Option<&[u8]>, second: Option<&[u8]>) -> u8 {
    match (first, second) {
        (Some(_), None) => 1,
        (None, Some(_)) => 2,
        (Some(a), Some(b)) if a != b => 3,
        _ => 0,
    }
}

/// The whole list. An empty slot seems to be of recipe 0, but of no segment.
pub fn list(first: &[u8], second: &[u8]) -> Vec<u8> {
    let slots = first.chunks(16).chain(second.chunks(16));
    let recipes = slots.map(|slot| u16::from_be_bytes([slot[0], slot[1]]));
    let mut list = Vec::new();
    for recipe in recipes.collect::<BTreeSet<u16>>() {
        for segment in 1..=32 {
            let [a, b] = [first, second].map(|card| slot_of(card, recipe, segment));
            let [high, low] = recipe.to_be_bytes();
            if mark(a, b) != 0 {
                list.extend([high, low, segment, mark(a, b)]);
            }
        }
    }
    list
}
