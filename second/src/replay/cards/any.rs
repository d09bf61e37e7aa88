//! Cards at random: few pairs, so that they meet, then any pair; often damaged.
//! Follows document 02, request 1.

use crate::bytes::Block;
use crate::card::{find, Record, EMPTY, SLOT};
use crate::random::Random;
use crate::replay::script::Script;

const RECIPES: [u16; 3] = [1, 2, 257];
const SEGMENTS: [u8; 3] = [1, 2, 32];

pub fn write(script: &mut Script) {
    let random = &mut Random::seeded(3);
    for _ in 0..380 {
        few_pairs(script, random);
    }
    for _ in 0..12 {
        many_slots(script, random);
    }
}

fn few_pairs(script: &mut Script, random: &mut Random) {
    let number = random.below(8);
    let card = any_card(random, number, any_of_few);
    let card = damaged(random, card);
    script.is_good(&card);
    for _ in 0..2 {
        let recipe = random.one_of(&[0, 1, 1, 2, 2, 257, 257]);
        let segment = random.one_of(&[0, 1, 1, 2, 2, 32, 32]);
        script.find(&card, recipe, segment);
    }
    for _ in 0..2 {
        let record = any_of_few(random).bytes().to_vec();
        let record = match random.below(5) {
            0 => damaged(random, record),
            _ => record,
        };
        script.put(&card, &record);
    }
}

fn many_slots(script: &mut Script, random: &mut Random) {
    let number = 8 + random.below(32);
    let card = any_card(random, number, any_record);
    let card = damaged(random, card);
    let slot: Block = card[..SLOT].try_into().expect("a slot has 16 bytes");
    let inside = SLOT * random.below(card.len() / SLOT);
    let pair = &card[inside..inside + 3];
    let (recipe, segment) = (u16::from_be_bytes([pair[0], pair[1]]), pair[2]);
    script.is_good(&card);
    script.find(&card, recipe.into(), segment.into());
    let namesake = Record {
        recipe,
        segment,
        ..any_record(random)
    };
    script.put(&card, &namesake.bytes());
    script.put(&card, &slot);
    script.put(&card, &any_record(random).bytes());
}

fn any_of_few(random: &mut Random) -> Record {
    Record {
        recipe: random.one_of(&RECIPES),
        segment: random.one_of(&SEGMENTS),
        ..any_record(random)
    }
}

pub fn any_record(random: &mut Random) -> Record {
    Record {
        recipe: 1 + random.below(65_535) as u16,
        segment: 1 + random.below(32) as u8,
        kind: 1 + random.below(3) as u8,
        target: random.below(13_501) as u16,
        rate: random.number() as u16,
        hold: random.number() as u16,
    }
}

/// Filled and empty slots; a pair that is there already mostly gives way.
fn any_card(random: &mut Random, number: usize, any: fn(&mut Random) -> Record) -> Vec<u8> {
    let mut card = Vec::new();
    for _ in 0..number {
        let record = any(random);
        let there = !find(&card, record.recipe.into(), record.segment.into()).is_empty();
        let empty = random.below(4) == 0 || (there && random.below(12) != 0);
        card.extend(if empty { EMPTY } else { record.bytes() });
    }
    card
}

/// The bytes with one place changed, or cut off, or longer; more often as they are.
pub fn damaged(random: &mut Random, mut bytes: Vec<u8>) -> Vec<u8> {
    let length = bytes.len();
    let place = random.below(length.max(1));
    match random.below(14) {
        0 | 1 if length > 0 => bytes[place] = random.byte(),
        2 if length > 0 => bytes[place] ^= 1 << random.below(8),
        3 if length > SLOT => bytes.truncate(length - 1 - random.below(15)),
        4 => bytes.extend(random.bytes(1 + place % 15)),
        5 => bytes.extend([0; 7]),
        _ => {}
    }
    bytes
}
