//! Two cards compared: where they differ, and which of them has what there.
//! Follows document 02, request 6.

use crate::card::{good, EMPTY, SLOT};
use crate::cipher::written_over;
use crate::refusal::Answer;
use std::collections::{BTreeMap, BTreeSet};

/// What a comparison gives back: `out` is the output as it is afterwards.
#[derive(Clone, Debug, PartialEq, Eq)]
pub struct Compared {
    pub answer: Answer,
    pub written: u64,
    pub out: Vec<u8>,
}

pub fn compare(first: &[u8], second: &[u8], out: &[u8]) -> Compared {
    let list = differences(first, second);
    let answer = Answer::first(&[
        (Answer::BadCard, !good(first) || !good(second)),
        (Answer::NoRoom, out.len() < list.len()),
    ]);
    let front = match answer {
        Answer::Done => &list[..],
        _ => &[],
    };
    Compared {
        answer,
        written: front.len() as u64,
        out: written_over(out, front),
    }
}

/// Each recipe and segment with its mark. A record that only the first card has sets
/// bit 1 there, one that only the second has bit 2; other contents set both.
fn differences(first: &[u8], second: &[u8]) -> Vec<u8> {
    let (first, second) = (records(first), records(second));
    let only_first = first.difference(&second).map(|record| (record, 1));
    let only_second = second.difference(&first).map(|record| (record, 2));
    let mut marks: BTreeMap<&[u8], u8> = BTreeMap::new();
    for (record, bit) in only_first.chain(only_second) {
        *marks.entry(&record[..3]).or_default() |= bit;
    }
    let listed = marks
        .into_iter()
        .map(|(pair, mark)| [pair, &[mark]].concat());
    listed.flatten().collect()
}

/// The filled slots, whole, as a set: neither their order nor empty ones are left.
fn records(card: &[u8]) -> BTreeSet<&[u8]> {
    let slots = card.chunks_exact(SLOT);
    slots.filter(|slot| *slot != EMPTY).collect()
}
