//! Cards of 256 filled slots that agree in all of their pairs, in half or in none, and
//! the longest list.
//! Follows document 02, request 6.

use super::{shuffled, Compares, LONGEST};
use crate::bytes::Block;
use crate::card::SLOTS;
use crate::replay::cards::{other, s};

const HALF: usize = SLOTS / 2;

pub fn write(compares: &mut Compares) {
    let (front, behind) = (records(1, s), records(9, s));
    all(compares, &front);
    half(compares, &front, &behind);
    none(compares, &front, &behind);
    against_no_bytes(compares, &front);
}

/// Eight recipes from this one on, each with every segment.
fn records(first: u16, record: fn(u16, u8) -> Block) -> Vec<Block> {
    let recipes = first..first + 8;
    let of_recipe = |recipe| (1..=32).map(move |segment| record(recipe, segment));
    recipes.flat_map(of_recipe).collect()
}

fn any_order(compares: &mut Compares, card: &[Block]) -> Vec<u8> {
    shuffled(&mut compares.random, card, 0)
}

/// With the same contents, and with others.
fn all(compares: &mut Compares, card: &[Block]) {
    let same = any_order(compares, card);
    let others = any_order(compares, &records(1, other));
    compares.exactly(&card.concat(), &same);
    compares.exactly(&same, &others);
}

/// Half the records beside other pairs, beside other contents, and alone.
fn half(compares: &mut Compares, front: &[Block], behind: &[Block]) {
    let others = records(1, other);
    for rest in [&behind[..HALF], &others[HALF..], &[]] {
        let second = any_order(compares, &[&front[..HALF], rest].concat());
        compares.exactly(&front.concat(), &second);
    }
}

/// All pairs of the first before those of the second, then by turns, in a byte less and
/// in a byte more than the list takes.
fn none(compares: &mut Compares, front: &[Block], behind: &[Block]) {
    let second = any_order(compares, behind);
    compares.in_room(&front.concat(), &second, LONGEST);
    let pairs = [front, behind].concat();
    let by_turns = |from| pairs.iter().copied().skip(from).step_by(2);
    let [first, second] = [0, 1].map(|from| by_turns(from).collect::<Vec<Block>>());
    let (first, second) = (any_order(compares, &first), any_order(compares, &second));
    compares.in_room(&first, &second, LONGEST - 1);
    compares.in_room(&second, &first, LONGEST + 1);
}

fn against_no_bytes(compares: &mut Compares, card: &[Block]) {
    let card = any_order(compares, card);
    compares.in_room(&card, &[], 4 * SLOTS);
    compares.in_room(&[], &card, 4 * SLOTS - 1);
}
