//! Two cards compared: the request sentence by sentence on cards written out by hand, then
//! what must hold for any two.
//! Follows document 02, request 6.

mod any_cards;
mod compared_by_pairs;

use any_cards::{damaged, good_card};
use compared_by_pairs::list;
use second::card::{find, good, put};
use second::compare::compare;
use second::random::Random;

/// Recipe 1, segments 1 and 2, and recipe 2, segment 1.
const A: &str = "0001 01 01 2EE0 0258 0000 000000000000";
const B: &str = "0001 02 02 2EE0 0000 001E 000000000000";
const C: &str = "0002 01 03 00C8 0032 0000 000000000000";
/// Recipe 1, segment 2 with another target.
const B_AGAIN: &str = "0001 02 02 2EE1 0000 001E 000000000000";
const EMPTY: &str = "0000 00 00 0000 0000 0000 000000000000";
const FILLER: u8 = 0x5A;

fn hex(text: &str) -> Vec<u8> {
    let digits: String = text.split_whitespace().collect();
    (0..digits.len() / 2)
        .map(|i| u8::from_str_radix(&digits[2 * i..2 * i + 2], 16).unwrap())
        .collect()
}

fn card(slots: &[&str]) -> Vec<u8> {
    slots.iter().flat_map(|slot| hex(slot)).collect()
}

/// Answer, bytes written, and the output as it is afterwards.
fn compared(first: &[u8], second: &[u8], room: usize) -> (u8, u64, Vec<u8>) {
    let back = compare(first, second, &vec![FILLER; room]);
    (back.answer.number(), back.written, back.out)
}

#[track_caller]
fn lists(first: &[u8], second: &[u8], list: &[u8]) {
    let length = list.len();
    let expected = (0, length as u64, list.to_vec());
    assert_eq!(compared(first, second, length), expected);
}

#[track_caller]
fn is_listed(first: &[&str], second: &[&str], list: &str) {
    lists(&card(first), &card(second), &hex(list));
}

#[track_caller]
fn is_refused(first: &[u8], second: &[u8], room: usize, number: u8) {
    let as_it_was = vec![FILLER; room];
    assert_eq!(compared(first, second, room), (number, 0, as_it_was));
}

/// The card of 256 filled slots: eight recipes from this one on with segments 1 to 32.
fn full(first_recipe: usize, target: u8) -> Vec<u8> {
    let slot = |i: usize| {
        let (recipe, segment) = ((first_recipe + i / 32) as u8, 1 + (i % 32) as u8);
        [&[0, recipe, segment, 1, 0, target][..], &[0; 10]].concat()
    };
    (0..256).flat_map(slot).collect()
}

#[test]
fn the_whole_list_of_the_example() {
    is_listed(
        &[A, B],
        &[B_AGAIN, C],
        "00 01 01 01  00 01 02 03  00 02 01 02",
    );
}

#[test]
fn a_difference_is_4_bytes_recipe_segment_and_mark() {
    let slot = "1234 20 01 2EE0 0258 0000 000000000000";
    is_listed(&[slot], &[], "1234 20 01");
    is_listed(&[], &[slot], "1234 20 02");
    let slot = "FFFF 01 01 2EE0 0258 0000 000000000000";
    is_listed(&[slot, A], &[A], "FFFF 01 01");
}

#[test]
fn mark_1_is_only_in_the_first() {
    is_listed(&[A], &[], "0001 01 01");
    is_listed(&[A, B], &[B], "0001 01 01");
    is_listed(&[A, B, C], &[B], "0001 01 01 0002 01 01");
}

#[test]
fn mark_2_is_only_in_the_second() {
    is_listed(&[], &[A], "0001 01 02");
    is_listed(&[B], &[A, B], "0001 01 02");
    is_listed(&[B], &[A, B, C], "0001 01 02 0002 01 02");
}

#[test]
fn mark_3_is_in_both_with_other_contents_whichever_field_it_is() {
    for other in [
        "0001 02 01 2EE0 0000 001E 000000000000",
        "0001 02 03 2EE0 0000 001E 000000000000",
        "0001 02 02 2EDF 0000 001E 000000000000",
        "0001 02 02 2DE0 0000 001E 000000000000",
        "0001 02 02 2EE0 0001 001E 000000000000",
        "0001 02 02 2EE0 0100 001E 000000000000",
        "0001 02 02 2EE0 0000 001F 000000000000",
        "0001 02 02 2EE0 0000 011E 000000000000",
        "0001 02 02 0000 FFFF FFFF 000000000000",
    ] {
        is_listed(&[B], &[other], "0001 02 03");
        is_listed(&[A, B, C], &[C, other, A], "0001 02 03");
    }
}

#[test]
fn a_pair_in_both_with_the_same_contents_is_not_listed() {
    is_listed(&[A], &[A], "");
    is_listed(&[A, B, C], &[A, B, C], "");
    is_listed(&[A, B], &[B, C], "0001 01 01 0002 01 02");
}

#[test]
fn a_pair_has_both_its_recipe_and_its_segment() {
    let recipe_2 = "0002 02 02 2EE0 0000 001E 000000000000";
    let recipe_257 = "0101 02 02 2EE0 0000 001E 000000000000";
    let segment_3 = "0001 03 02 2EE0 0000 001E 000000000000";
    is_listed(&[B], &[recipe_2], "0001 02 01 0002 02 02");
    is_listed(&[recipe_257], &[B], "0001 02 02 0101 02 01");
    is_listed(&[B], &[segment_3], "0001 02 01 0001 03 02");
}

#[test]
fn the_list_goes_by_recipe_then_segment() {
    let pairs = ["0001 02", "0001 20", "00FF 03", "0100 01", "FFFF 20"];
    let slot = |pair: &str| hex(&format!("{pair} 01 2EE0 0258 0000 000000000000"));
    let listed = |mark: &str| hex(&pairs.map(|pair| format!("{pair} {mark}")).concat());
    for order in [[0, 1, 2, 3, 4], [3, 1, 4, 0, 2], [4, 3, 2, 1, 0]] {
        let card = order.map(|i| slot(pairs[i])).concat();
        lists(&card, &[], &listed("01"));
        lists(&[], &card, &listed("02"));
    }
    lists(
        &[4, 2, 0].map(|i| slot(pairs[i])).concat(),
        &[3, 1].map(|i| slot(pairs[i])).concat(),
        &hex("0001 02 01 0001 20 02 00FF 03 01 0100 01 02 FFFF 20 01"),
    );
}

#[test]
fn empty_slots_and_slot_order_do_not_count() {
    is_listed(&[A, B, C], &[C, A, B], "");
    is_listed(&[A, B], &[EMPTY, B, EMPTY, EMPTY, A, EMPTY], "");
    is_listed(&[EMPTY], &[], "");
    is_listed(&[EMPTY, EMPTY], &[EMPTY], "");
    let list = "0001 01 01 0001 02 03 0002 01 02";
    is_listed(&[B, EMPTY, A], &[EMPTY, C, EMPTY, B_AGAIN], list);
    is_listed(&[EMPTY, A, B], &[C, B_AGAIN, EMPTY], list);
}

#[test]
fn it_reports_the_bytes_written_and_leaves_those_behind() {
    let (first, second) = (card(&[A, B]), card(&[B_AGAIN, C]));
    let list = hex("0001 01 01 0001 02 03 0002 01 02");
    for more in [0, 1, 3, 4, 100] {
        let out = [&list[..], &vec![FILLER; more]].concat();
        assert_eq!(compared(&first, &second, 12 + more), (0, 12, out));
    }
    assert_eq!(compared(&first, &first, 2), (0, 0, vec![FILLER; 2]));
    assert_eq!(compared(&[], &[], 0), (0, 0, vec![]));
}

#[test]
fn refusal_9_if_the_list_does_not_fit() {
    let (first, second) = (card(&[A, B]), card(&[B_AGAIN, C]));
    for room in 0..12 {
        is_refused(&first, &second, room, 9);
    }
    is_refused(&first, &[], 7, 9);
    is_refused(&[], &card(&[A]), 0, 9);
}

/// A bad card for each cause.
fn bad_cards() -> Vec<Vec<u8>> {
    let slots = [
        "0000 01 01 2EE0 0258 0000 000000000000",
        "0001 00 01 2EE0 0258 0000 000000000000",
        "0001 21 01 2EE0 0258 0000 000000000000",
        "0001 01 00 2EE0 0258 0000 000000000000",
        "0001 01 04 2EE0 0258 0000 000000000000",
        "0001 01 01 34BD 0258 0000 000000000000",
        "0001 01 01 2EE0 0258 0000 010000000000",
        "0000 00 00 0000 0000 0000 000000000001",
    ];
    let mut cards: Vec<Vec<u8>> = slots.iter().map(|slot| card(&[C, slot])).collect();
    cards.extend([card(&[B, B]), card(&[B, C, B_AGAIN])]);
    cards.extend([vec![0], hex(A)[..15].to_vec(), card(&[A, B])[..17].to_vec()]);
    cards.extend([vec![0; 4112], [full(1, 1), hex(EMPTY)].concat()]);
    cards
}

#[test]
fn refusal_12_for_either_card_then_9() {
    for bad in bad_cards() {
        for good in [card(&[]), card(&[A]), card(&[C, EMPTY, B])] {
            for room in [0, 1, 2048] {
                is_refused(&bad, &good, room, 12);
                is_refused(&good, &bad, room, 12);
            }
        }
        for other in bad_cards() {
            is_refused(&bad, &other, 0, 12);
            is_refused(&bad, &other, 2048, 12);
        }
    }
    is_refused(&card(&[A]), &card(&[C, EMPTY, B]), 11, 9);
}

#[test]
fn the_longest_list_has_512_records_in_2048_bytes() {
    let (first, second) = (full(1, 1), full(9, 1));
    let pair = |i: usize| [0, 1 + (i / 32) as u8, 1 + (i % 32) as u8];
    let listed = |i: usize| [&pair(i)[..], &[if i < 256 { 1 } else { 2 }]].concat();
    let list: Vec<u8> = (0..512).flat_map(listed).collect();
    lists(&first, &second, &list);
    is_refused(&first, &second, 2047, 9);
}

#[test]
fn whole_cards_that_agree_in_every_pair() {
    lists(&full(1, 1), &full(1, 1), &[]);
    let pair = |i: usize| [0, 1 + (i / 32) as u8, 1 + (i % 32) as u8, 3];
    let list: Vec<u8> = (0..256).flat_map(pair).collect();
    lists(&full(1, 1), &full(1, 2), &list);
    is_refused(&full(1, 1), &full(1, 2), 1023, 9);
}

/// Recipes 1, 2, 257 and 258, segments 1, 2 and 32, few contents.
fn any_record(random: &mut Random) -> Vec<u8> {
    let recipe: [u8; 2] = [random.one_of(&[0, 1]), random.one_of(&[1, 2])];
    let (segment, kind) = (random.one_of(&[1, 2, 32]), random.one_of(&[1, 2]));
    let target = random.one_of(&[0, 1]);
    [&recipe[..], &[segment, kind, target], &[0; 11]].concat()
}

fn any_good_card(random: &mut Random) -> Vec<u8> {
    good_card(random, any_record, 12, 5)
}

/// Any two good cards, and the list of what they differ in.
fn any_two(random: &mut Random) -> (Vec<u8>, Vec<u8>, Vec<u8>) {
    let (first, second) = (any_good_card(random), any_good_card(random));
    let (answer, written, out) = compared(&first, &second, 2048);
    assert_eq!(answer, 0);
    (first, second, out[..written as usize].to_vec())
}

#[test]
fn a_pair_is_listed_exactly_when_the_cards_differ_there() {
    let random = &mut Random::seeded(301);
    let mut seen = [0; 4];
    for _ in 0..5_000 {
        let (first, second, listed) = any_two(random);
        assert_eq!(listed, list(&first, &second));
        for record in listed.chunks(4) {
            seen[usize::from(record[3])] += 1;
        }
    }
    assert!(seen[1..].iter().all(|&number| number > 1_000), "{seen:?}");
}

#[test]
fn exchanging_the_cards_exchanges_1_and_2() {
    let random = &mut Random::seeded(302);
    for _ in 0..2_000 {
        let (first, second, mut listed) = any_two(random);
        for record in listed.chunks_mut(4) {
            record[3] = [0, 2, 1, 3][usize::from(record[3])];
        }
        lists(&second, &first, &listed);
    }
}

#[test]
fn a_card_does_not_differ_from_itself_in_any_order_with_empty_slots() {
    let random = &mut Random::seeded(303);
    for _ in 0..2_000 {
        let card = any_good_card(random);
        let mut slots: Vec<Vec<u8>> = card.chunks(16).map(<[u8]>::to_vec).collect();
        slots.extend(vec![vec![0; 16]; random.below(4)]);
        random.shuffle(&mut slots);
        lists(&card, &card, &[]);
        lists(&card, &slots.concat(), &[]);
        let (_, other, _) = any_two(random);
        lists(&slots.concat(), &other, &list(&card, &other));
    }
}

/// Nothing if it was there already, or found no slot.
#[test]
fn one_record_put_on_a_copy_lists_that_pair_or_nothing() {
    let random = &mut Random::seeded(304);
    let mut seen = [0; 4];
    for _ in 0..5_000 {
        let (card, record) = (any_good_card(random), any_record(random));
        let back = put(&card, &record);
        let recipe = u16::from_be_bytes([record[0], record[1]]);
        let mark = match find(&card, recipe.into(), record[2].into()) {
            _ if back.answer.number() == 14 => 0,
            [] => 2,
            slot if slot == record => 0,
            _ => 3,
        };
        let listed = [&record[..3], &[mark]].concat();
        lists(&card, &back.card, if mark == 0 { &[] } else { &listed });
        seen[usize::from(mark)] += 1;
    }
    assert!(seen[0] > 500 && seen[2] > 500 && seen[3] > 500, "{seen:?}");
}

/// What is listed with 1 goes, what is listed with 2 or 3 comes from the second.
#[test]
fn the_first_card_with_the_list_carried_out_is_the_second() {
    let random = &mut Random::seeded(305);
    for _ in 0..2_000 {
        let (first, second, listed) = any_two(random);
        let named = |slot: &&[u8]| listed.chunks(4).any(|record| record[..3] == slot[..3]);
        let mut changed: Vec<&[u8]> = first.chunks(16).filter(|slot| !named(slot)).collect();
        let comes = |record: &&[u8]| record[3] != 1;
        for record in listed.chunks(4).filter(comes) {
            let recipe = u16::from_be_bytes([record[0], record[1]]);
            changed.push(find(&second, recipe.into(), record[2].into()));
        }
        let filled = |slots: Vec<&[u8]>| -> Vec<Vec<u8>> {
            let filled = slots.iter().filter(|slot| slot[2] != 0);
            let mut filled: Vec<Vec<u8>> = filled.map(|slot| slot.to_vec()).collect();
            filled.sort();
            filled
        };
        assert_eq!(filled(changed), filled(second.chunks(16).collect()));
    }
}

#[test]
fn refused_under_the_length_of_the_list_and_done_from_it_on() {
    let random = &mut Random::seeded(306);
    for _ in 0..500 {
        let (first, second, listed) = any_two(random);
        for room in 0..listed.len() + 6 {
            if room < listed.len() {
                is_refused(&first, &second, room, 9);
                continue;
            }
            let out = [&listed[..], &vec![FILLER; room - listed.len()]].concat();
            let expected = (0, listed.len() as u64, out);
            assert_eq!(compared(&first, &second, room), expected);
        }
    }
}

fn any_card(random: &mut Random) -> Vec<u8> {
    let card = any_good_card(random);
    damaged(random, card)
}

#[test]
fn refusal_12_exactly_when_a_card_is_bad() {
    let random = &mut Random::seeded(307);
    let mut seen = [0; 13];
    for _ in 0..10_000 {
        let (first, second) = (any_card(random), any_card(random));
        let room = random.below(40);
        let (answer, written, out) = compared(&first, &second, room);
        assert_eq!(answer == 12, !good(&first) || !good(&second));
        let as_it_was = written == 0 && out == vec![FILLER; room];
        assert!(answer == 0 || as_it_was);
        seen[usize::from(answer)] += 1;
    }
    assert!([0, 9, 12].iter().all(|&answer| seen[answer] > 500));
}
