//! A card shown: its recipes, or every rule that it breaks.
//! Follows the page on the bench, 'card show'.

use super::fields::{RECIPE, SEGMENT, TARGET};
use super::firing::{steps, time};
use super::words::words;
use super::{pair, records};
use crate::card::{Record, EMPTY, SLOT, SLOTS};
use std::collections::{BTreeMap, BTreeSet};

/// The most bytes of a card that are looked at.
const LOOKED_AT: usize = SLOT * (SLOTS + 1);

/// The segments of a good card's recipe, by number.
pub fn segments(card: &[u8], recipe: u64) -> Vec<Record> {
    let of_recipe = records(card).filter(|record| u64::from(record.recipe) == recipe);
    let by_number: BTreeMap<u8, Record> =
        of_recipe.map(|record| (record.segment, record)).collect();
    by_number.into_values().collect()
}

pub fn good(card: &[u8]) -> String {
    let recipes: BTreeSet<u16> = records(card).map(|record| record.recipe).collect();
    match recipes.len() {
        0 => "the card is empty\n".to_string(),
        _ => recipes.iter().map(|&number| recipe(card, number)).collect(),
    }
}

fn recipe(card: &[u8], number: u16) -> String {
    let segments = segments(card, number.into());
    let line = |record: &Record| format!("  segment {}: {}\n", record.segment, words(record));
    [
        format!("recipe {number}: {}\n", time(&steps(&segments))),
        segments.iter().map(line).collect(),
    ]
    .concat()
}

/// A line for every rule that a bad card breaks.
pub fn bad(card: &[u8]) -> String {
    let whole: Vec<&[u8]> = card.chunks_exact(SLOT).take(SLOTS).collect();
    let of_slots = whole.iter().zip(1..).flat_map(|(slot, number)| {
        let said = broken(slot).into_iter().chain(twice(&whole, number));
        said.map(move |said| format!("slot {number}: {said}"))
    });
    let said = length(card.len()).into_iter().chain(of_slots);
    said.map(|line| line + "\n").collect()
}

fn length(bytes: usize) -> Vec<String> {
    let (said, whole) = match bytes {
        0..=LOOKED_AT => (bytes.to_string(), bytes % SLOT == 0),
        _ => (format!("more than {LOOKED_AT}"), true),
    };
    let most = SLOT * SLOTS;
    let rules = [
        (
            whole,
            format!("the card has {said} bytes, which is no multiple of {SLOT}"),
        ),
        (
            bytes <= most,
            format!("the card has {said} bytes, and at most {most} have room"),
        ),
    ];
    let broken = rules.into_iter().filter(|(kept, _)| !kept);
    broken.map(|(_, said)| said).collect()
}

/// What is said of each rule that the slot breaks; an empty slot breaks none.
fn broken(slot: &[u8]) -> Vec<String> {
    if slot == EMPTY {
        return vec![];
    }
    let record = Record::of(slot);
    let kind = match record.kind {
        1..=3 => None,
        kind => Some(format!("kind {kind} is none of 1 climb, 2 hold and 3 drop")),
    };
    let behind = match slot[10..] {
        [0, 0, 0, 0, 0, 0] => None,
        _ => Some("a byte behind the hold is not zero".to_string()),
    };
    let rules = [
        RECIPE.broken(record.recipe.into()),
        SEGMENT.broken(record.segment.into()),
        kind,
        TARGET.broken(record.target.into()),
        behind,
    ];
    rules.into_iter().flatten().collect()
}

/// What is said of a slot that keeps the rules behind a namesake that keeps them too.
fn twice(slots: &[&[u8]], number: usize) -> Option<String> {
    let names = |slot: &[u8]| (slot != EMPTY && broken(slot).is_empty()).then(|| pair(slot));
    let (recipe, segment) = names(slots[number - 1])?;
    let mut earlier = slots[..number - 1].iter();
    let place = earlier.position(|slot| names(slot) == Some((recipe, segment)))?;
    Some(format!(
        "recipe {recipe} segment {segment} stands in slot {} already",
        place + 1
    ))
}
