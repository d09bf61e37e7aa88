//! The compares part of the script: two cards and what they differ in, and cards that
//! aren't compared because one is bad.
//! Follows document 02, request 6.

mod any;
mod bad;
mod beside;
mod example;
mod fields;
mod order;
mod sizes;
mod twice;
mod whole;

use super::cards::any::any_record;
use super::script::{room, Script};
use crate::bytes::Block;
use crate::card::EMPTY;
use crate::compare::compare;
use crate::random::Random;
use std::collections::{BTreeMap, BTreeSet};

pub fn write(script: &mut Script) {
    let random = Random::seeded(8);
    let compares = &mut Compares { script, random };
    example::write(compares);
    fields::write(compares);
    order::write(compares);
    sizes::write(compares);
    whole::write(compares);
    bad::write(compares);
    twice::write(compares);
    any::write(compares);
    beside::write(compares);
}

/// The longest list: 512 records of 4 bytes.
const LONGEST: usize = 2048;

/// The script while cards are compared in it. What an output holds before is drawn.
pub struct Compares<'a> {
    script: &'a mut Script,
    random: Random,
}

impl Compares<'_> {
    fn in_room(&mut self, first: &[u8], second: &[u8], space: usize) {
        let buffer = room(space, self.random.byte());
        self.script.compare(first, second, buffer);
    }

    /// In as much room as the list takes.
    fn exactly(&mut self, first: &[u8], second: &[u8]) {
        self.in_room(first, second, listed(first, second));
    }

    fn both_ways(&mut self, first: &[u8], second: &[u8]) {
        self.exactly(first, second);
        self.exactly(second, first);
    }

    /// In as much room as the list takes, in a byte less, in a byte more, in none.
    fn in_rooms(&mut self, first: &[u8], second: &[u8]) {
        let exact = listed(first, second);
        for space in BTreeSet::from([exact, exact.saturating_sub(1), exact + 1, 0]) {
            self.in_room(first, second, space);
        }
    }
}

/// How many bytes the list takes; none if a card is bad.
fn listed(first: &[u8], second: &[u8]) -> usize {
    compare(first, second, &[0; LONGEST]).written as usize
}

/// So many filled slots, no pair twice.
fn filled(random: &mut Random, slots: usize) -> Vec<Block> {
    let mut records = BTreeMap::new();
    while records.len() < slots {
        let record = any_record(random);
        records.insert((record.recipe, record.segment), record.bytes());
    }
    let mut slots: Vec<Block> = records.into_values().collect();
    random.shuffle(&mut slots);
    slots
}

/// The card of these slots and so many empty ones, in any order.
fn shuffled(random: &mut Random, slots: &[Block], empty: usize) -> Vec<u8> {
    let mut slots = [slots, &vec![EMPTY; empty]].concat();
    random.shuffle(&mut slots);
    slots.concat()
}
