//! Records of which one field differs, by a step in either of its bytes, and by each bit.
//! Follows document 02, request 6.

use super::Compares;
use crate::bytes::Block;
use crate::card::{Record, EMPTY, SLOT};
use crate::replay::cards::s;

const MIDDLE: Record = Record {
    recipe: 770,
    segment: 7,
    kind: 2,
    target: 771,
    rate: 772,
    hold: 773,
};

pub fn write(compares: &mut Compares) {
    for changed in one_step() {
        alone_and_among_others(compares, MIDDLE.bytes(), changed.bytes());
    }
    for (a, b) in ends() {
        alone_and_among_others(compares, a.bytes(), b.bytes());
    }
    each_bit(compares);
}

fn alone_and_among_others(compares: &mut Compares, a: Block, b: Block) {
    compares.both_ways(&a, &b);
    let first = [s(1, 7), a, s(771, 8)].concat();
    let second = [EMPTY, b, s(771, 8), s(1, 7)].concat();
    compares.both_ways(&first, &second);
}

/// Each field one up and one down; where it has two bytes, the upper one too.
fn one_step() -> Vec<Record> {
    let mut records = Vec::new();
    for by in [1, -1] {
        let byte = |number: u8| number.wrapping_add(by as u8);
        let (segment, kind) = (byte(MIDDLE.segment), byte(MIDDLE.kind));
        records.push(Record { segment, ..MIDDLE });
        records.push(Record { kind, ..MIDDLE });
    }
    for by in [1, -1, 256, -256] {
        let step = |number: u16| number.wrapping_add(by as u16);
        let (recipe, target) = (step(MIDDLE.recipe), step(MIDDLE.target));
        let (rate, hold) = (step(MIDDLE.rate), step(MIDDLE.hold));
        records.push(Record { recipe, ..MIDDLE });
        records.push(Record { target, ..MIDDLE });
        records.push(Record { rate, ..MIDDLE });
        records.push(Record { hold, ..MIDDLE });
    }
    records
}

/// The lowest and the highest of each field against each other.
fn ends() -> [(Record, Record); 6] {
    let recipe = |recipe| Record { recipe, ..MIDDLE };
    let segment = |segment| Record { segment, ..MIDDLE };
    let kind = |kind| Record { kind, ..MIDDLE };
    let target = |target| Record { target, ..MIDDLE };
    let rate = |rate| Record { rate, ..MIDDLE };
    let hold = |hold| Record { hold, ..MIDDLE };
    [
        (recipe(1), recipe(65_535)),
        (segment(1), segment(32)),
        (kind(1), kind(3)),
        (target(0), target(13_500)),
        (rate(0), rate(65_535)),
        (hold(0), hold(65_535)),
    ]
}

/// Some of the bits make the card bad.
fn each_bit(compares: &mut Compares) {
    for bit in 0..8 * SLOT {
        let mut changed = MIDDLE.bytes();
        changed[bit / 8] ^= 1 << (bit % 8);
        compares.in_room(&MIDDLE.bytes(), &changed, 8);
    }
}
