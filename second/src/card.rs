//! Recipe cards: whether one is good, finding a segment, putting a record.
//! Follows document 02, request 1.

use crate::bytes::Block;
use crate::refusal::Answer;
use std::collections::BTreeMap;

pub const SLOT: usize = 16;
pub const SLOTS: usize = 256;
pub const EMPTY: Block = [0; SLOT];

/// The numbers of a slot, legal or not; bytes 10 to 15 are zero.
#[derive(Clone, Copy, Debug, PartialEq, Eq)]
pub struct Record {
    pub recipe: u16,
    pub segment: u8,
    pub kind: u8,
    pub target: u16,
    pub rate: u16,
    pub hold: u16,
}

impl Record {
    /// The numbers of a slot of 16 bytes, whatever stands behind them.
    pub fn of(slot: &[u8]) -> Record {
        let slot = number(slot);
        Record {
            recipe: field(slot, 0, 2) as u16,
            segment: field(slot, 2, 1) as u8,
            kind: field(slot, 3, 1) as u8,
            target: field(slot, 4, 2) as u16,
            rate: field(slot, 6, 2) as u16,
            hold: field(slot, 8, 2) as u16,
        }
    }

    pub fn bytes(self) -> Block {
        let mut bytes = EMPTY;
        bytes[0..2].copy_from_slice(&self.recipe.to_be_bytes());
        bytes[2..4].copy_from_slice(&[self.segment, self.kind]);
        bytes[4..6].copy_from_slice(&self.target.to_be_bytes());
        bytes[6..8].copy_from_slice(&self.rate.to_be_bytes());
        bytes[8..10].copy_from_slice(&self.hold.to_be_bytes());
        bytes
    }
}

pub fn good(card: &[u8]) -> bool {
    places(card).is_some()
}

/// The very slot of the card, or an empty part of it.
pub fn find(card: &[u8], recipe: u64, segment: u64) -> &[u8] {
    let places = places(card).unwrap_or_default();
    match places.get(&(recipe, segment)) {
        Some(place) => &card[SLOT * place..SLOT * (place + 1)],
        None => &card[..0],
    }
}

/// What a put gives back: the answer, and the card as it is afterwards.
#[derive(Clone, Debug, PartialEq, Eq)]
pub struct Put {
    pub answer: Answer,
    pub card: Vec<u8>,
}

pub fn put(card: &[u8], record: &[u8]) -> Put {
    let place = place_for(card, record);
    let answer = Answer::first(&[
        (Answer::BadCard, !good(card)),
        (Answer::BadRecord, !is_record(record)),
        (Answer::NoSlot, place.is_none()),
    ]);
    let mut slots: Vec<&[u8]> = card.chunks(SLOT).collect();
    if let (Answer::Done, Some(place)) = (answer, place) {
        slots[place] = record;
    }
    let card = slots.concat();
    Put { answer, card }
}

/// Where the namesake stands, else the first empty slot; nothing on a bad card.
fn place_for(card: &[u8], record: &[u8]) -> Option<usize> {
    let namesake = places(card)?.get(&pair(number(record))).copied();
    let mut slots = card.chunks(SLOT);
    namesake.or_else(|| slots.position(|slot| slot == EMPTY))
}

/// Where each recipe and segment stands, from 0; nothing if the card is bad.
fn places(card: &[u8]) -> Option<BTreeMap<(u64, u64), usize>> {
    if card.len() % SLOT != 0 || card.len() > SLOT * SLOTS {
        return None;
    }
    let slots = card.chunks(SLOT).map(number).enumerate();
    let filled: Vec<(usize, u128)> = slots.filter(|&(_, slot)| slot != 0).collect();
    let places: BTreeMap<_, _> = filled.iter().map(|&(i, slot)| (pair(slot), i)).collect();
    let legal = filled.iter().all(|&(_, slot)| is_legal(slot));
    let none_twice = places.len() == filled.len();
    (legal && none_twice).then_some(places)
}

fn is_record(record: &[u8]) -> bool {
    record.len() == SLOT && is_legal(number(record))
}

/// The rules of a filled slot; no empty one keeps them.
fn is_legal(slot: u128) -> bool {
    (1..=65_535).contains(&field(slot, 0, 2))
        && (1..=32).contains(&field(slot, 2, 1))
        && (1..=3).contains(&field(slot, 3, 1))
        && field(slot, 4, 2) <= 13_500
        && field(slot, 10, 6) == 0
}

fn pair(slot: u128) -> (u64, u64) {
    (field(slot, 0, 2), field(slot, 2, 1))
}

/// The number in `length` bytes of a slot from place `first` on.
fn field(slot: u128, first: u32, length: u32) -> u64 {
    ((slot << (8 * first)) >> (128 - 8 * length)) as u64
}

/// A slot as one big-endian number.
fn number(slot: &[u8]) -> u128 {
    let bytes = slot.iter().copied().map(u128::from);
    bytes.fold(0, |number, byte| number << 8 | byte)
}
