//! Two cards compared, in words.
//! Follows the page on the bench, 'compare'.

use super::numbers::tenths;
use super::words::{kind, words};
use crate::card::{find, Record, SLOTS};
use crate::compare::compare;

/// A line for each record of the list of two good cards.
pub fn differences(first: &[u8], second: &[u8]) -> String {
    let compared = compare(first, second, &[0; 4 * 2 * SLOTS]);
    let list = &compared.out[..compared.written as usize];
    list.chunks(4)
        .map(|entry| line(first, second, entry))
        .collect()
}

fn line(first: &[u8], second: &[u8], entry: &[u8]) -> String {
    let (recipe, segment) = (u16::from_be_bytes([entry[0], entry[1]]), entry[2]);
    let on = |card: &[u8]| match find(card, recipe.into(), segment.into()) {
        [] => None,
        slot => Some(Record::of(slot)),
    };
    let said = match (on(first), on(second)) {
        (Some(was), Some(is)) => format!("changed: {}", changes(&was, &is)),
        (Some(was), None) => format!("taken out: {}", words(&was)),
        (None, Some(is)) => format!("put in: {}", words(&is)),
        (None, None) => String::new(),
    };
    format!("recipe {recipe} segment {segment}: {said}\n")
}

fn changes(was: &Record, is: &Record) -> String {
    let fields = |record: &Record| {
        [
            ("kind", kind(record).to_string()),
            ("target", tenths(record.target)),
            ("rate", tenths(record.rate)),
            ("hold", record.hold.to_string()),
        ]
    };
    let pairs = fields(was).into_iter().zip(fields(is));
    let changed = pairs.filter(|(was, is)| was != is);
    let said = changed.map(|((name, was), (_, is))| format!("{name} was {was} and is {is}"));
    said.collect::<Vec<String>>().join(", ")
}
