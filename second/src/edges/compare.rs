//! The edge cases of two cards compared.
//! Follows document 02, request 6.

use super::{hex, BEFORE};
use crate::bytes::Block;
use crate::card::{Record, EMPTY, SLOTS};
use crate::compare;

pub fn compare() -> String {
    [
        the_example(),
        whole_cards(),
        one_record(),
        other_contents(),
        order(),
        bad_cards(),
    ]
    .concat()
}

fn rec(recipe: u16, segment: u8, target: u16) -> Record {
    Record {
        recipe,
        segment,
        kind: 1,
        target,
        rate: 600,
        hold: 10,
    }
}

fn slot(recipe: u16, segment: u8, target: u16) -> Block {
    rec(recipe, segment, target).bytes()
}

fn full(first_recipe: u16, first_target: u16) -> Vec<Block> {
    let slot = |i| slot(first_recipe + i / 32, 1 + (i % 32) as u8, first_target + i);
    (0..SLOTS as u16).map(slot).collect()
}

fn case(name: &str, first: &[Block], second: &[Block], room: usize) -> String {
    case_of_bytes(name, &first.concat(), &second.concat(), room)
}

fn case_of_bytes(name: &str, first: &[u8], second: &[u8], room: usize) -> String {
    let back = compare::compare(first, second, &vec![BEFORE; room]);
    let (answer, written) = (back.answer.number(), back.written);
    let (list, behind) = back.out.split_at(written as usize);
    let lines = list.chunks(4).map(|bytes| format!("  {}\n", hex(bytes)));
    let rest = match behind.iter().all(|&byte| byte == BEFORE) {
        true => "as it was",
        false => "changed",
    };
    [
        format!("{name}, in {room} of room: answer {answer}, writes {written}\n"),
        lines.collect(),
        format!("  behind it: {rest}\n"),
    ]
    .concat()
}

fn the_example() -> String {
    let (a, b) = (slot(1, 1, 1000), slot(1, 2, 1000));
    let (other_b, c) = (slot(1, 2, 1100), slot(2, 1, 1000));
    let (first, second) = ([a, b], [other_b, c]);
    [
        case("no bytes against no bytes", &[], &[], 0),
        case("the example", &first, &second, 12),
        case("the example with more room", &first, &second, 15),
        case("the example in room one byte short", &first, &second, 11),
        case("the example, the cards exchanged", &second, &first, 12),
        case(
            "the example in other orders, with empty slots",
            &[b, EMPTY, a],
            &[EMPTY, c, EMPTY, other_b],
            12,
        ),
    ]
    .concat()
}

fn whole_cards() -> String {
    let card = &full(1, 1000);
    let shuffled: Vec<Block> = (0..SLOTS).map(|i| card[(i * 37 + 5) % SLOTS]).collect();
    let line = |name, second: &[Block], room| case(name, card, second, room);
    [
        line("the same card", card, 0),
        line("the same card shuffled", &shuffled, 0),
        line("256 pairs with other contents", &full(1, 2000), 1024),
        line(
            "256 pairs with other contents in room one byte short",
            &full(1, 2000),
            1023,
        ),
        line("no pair in common", &full(9, 1000), 2048),
        line(
            "no pair in common in room one byte short",
            &full(9, 1000),
            2047,
        ),
    ]
    .concat()
}

fn one_record() -> String {
    let record = [slot(1, 1, 1000)];
    [
        case("an empty slot against no bytes", &[EMPTY], &[], 0),
        case("one record against no bytes", &record, &[], 4),
        case("one record against no bytes in no room", &record, &[], 0),
        case("no bytes against one record", &[], &record, 4),
    ]
    .concat()
}

fn other_contents() -> String {
    let first = rec(1, 1, 1000);
    let line = |name, second: Record| case(name, &[first.bytes()], &[second.bytes()], 4);
    [
        line("another kind", Record { kind: 2, ..first }),
        line("another rate", Record { rate: 601, ..first }),
        line("another hold", Record { hold: 266, ..first }),
    ]
    .concat()
}

fn order() -> String {
    let pairs = [(256, 1), (1, 32), (65_535, 32), (1, 2), (255, 3)];
    let first = pairs.map(|(recipe, segment)| slot(recipe, segment, 1000));
    case("by recipe, then segment", &first, &[], 20)
}

fn bad_cards() -> String {
    let record = slot(1, 1, 1000);
    let twice = [slot(2, 1, 1000), slot(2, 1, 1100)];
    let too_hot = [slot(2, 1, 13_501)];
    [
        case_of_bytes("the first card bad", &record[..15], &record, 4),
        case("the second card bad", &[record], &twice, 12),
        case("the second card bad, no room", &[record], &too_hot, 0),
        case_of_bytes("both cards bad", &[0; 4112], &slot(1, 0, 1000), 2048),
    ]
    .concat()
}
