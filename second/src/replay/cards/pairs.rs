//! Cards where a pair stands twice, and cards where it only seems so.
//! Follows document 02, request 1.

use super::{other, s};
use crate::bytes::Block;
use crate::card::{Record, EMPTY};
use crate::edges::standard;
use crate::replay::script::Script;

pub fn write(script: &mut Script) {
    for slots in twice().into_iter().chain(once()) {
        let card = slots.concat();
        script.is_good(&card);
        for (recipe, segment) in [(1, 1), (1, 2), (2, 1)] {
            script.find(&card, recipe, segment);
        }
        script.put(&card, &other(1, 1));
        script.put(&card, &s(2, 2));
    }
}

/// Next to each other and far apart, with the same contents and with others.
fn twice() -> Vec<Vec<Block>> {
    let (a, b, c) = (s(1, 1), s(1, 2), s(2, 1));
    let mut cards = Vec::new();
    for again in one_number_changed() {
        cards.push(vec![again, a]);
        cards.push(vec![a, b, again]);
    }
    for again in [a, other(1, 1)] {
        cards.extend([
            vec![a, again],
            vec![again, a, b],
            vec![b, a, again],
            vec![a, EMPTY, again],
            vec![a, b, EMPTY, c, again],
            vec![EMPTY, b, again, EMPTY, c, a, EMPTY],
        ]);
    }
    cards.extend([vec![a, a, a], vec![b, a, b, a], vec![a, b, c, c]]);
    cards
}

fn one_number_changed() -> [Block; 4] {
    let a = standard(1, 1);
    let records = [
        Record { kind: 1, ..a },
        Record { target: 0, ..a },
        Record { rate: 601, ..a },
        Record { hold: 31, ..a },
    ];
    records.map(Record::bytes)
}

/// Same recipe, same segment, swapped, recipes with a byte in common, empty slots.
fn once() -> Vec<Vec<Block>> {
    vec![
        vec![s(1, 1), s(1, 2)],
        vec![s(1, 1), s(2, 1)],
        vec![s(1, 2), s(2, 1)],
        vec![s(1, 1), s(256, 1), s(257, 1)],
        vec![s(257, 1), s(1, 1), s(513, 1)],
        vec![s(65_535, 1), s(255, 1), s(65_280, 1)],
        vec![s(257, 1), s(513, 2), s(2, 1), s(1, 32)],
        vec![s(1, 1), s(1, 17), s(1, 32)],
        vec![s(2, 2), s(2, 1), s(1, 2), s(1, 1)],
        vec![EMPTY, EMPTY],
        vec![EMPTY, s(1, 1), EMPTY, EMPTY, s(1, 2), EMPTY],
    ]
}
