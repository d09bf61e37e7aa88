//! Recipe cards: the request sentence by sentence on cards written out by hand, then
//! what must hold on any card.
//! Follows document 02, request 1.

mod any_cards;

use any_cards::{damaged, good_card};
use second::card::{find, good, put};
use second::random::Random;

/// Recipe 1, segments 1 and 2, and recipe 2, segment 1, each with other numbers.
const A: &str = "0001 01 01 2EE0 0258 0000 000000000000";
const B: &str = "0001 02 02 2EE0 0000 001E 000000000000";
const C: &str = "0002 01 03 00C8 0032 0000 000000000000";
/// Another record of recipe 1 and segment 1.
const A_AGAIN: &str = "0001 01 03 0001 FFFF 0005 000000000000";
const EMPTY: &str = "0000 00 00 0000 0000 0000 000000000000";

fn hex(text: &str) -> Vec<u8> {
    let digits: String = text.split_whitespace().collect();
    (0..digits.len() / 2)
        .map(|i| u8::from_str_radix(&digits[2 * i..2 * i + 2], 16).unwrap())
        .collect()
}

fn card(slots: &[&str]) -> Vec<u8> {
    slots.iter().flat_map(|slot| hex(slot)).collect()
}

#[track_caller]
fn is_put(before: &[&str], record: &str, after: &[&str]) {
    let back = put(&card(before), &hex(record));
    assert_eq!((back.answer.number(), back.card), (0, card(after)));
}

#[track_caller]
fn is_refused(card: &[u8], record: &[u8], number: u8) {
    let back = put(card, record);
    assert_eq!((back.answer.number(), &back.card[..]), (number, card));
}

/// The card of so many filled slots: recipes 1, 2 and on with segments 1 to 32.
fn filled(slots: usize) -> Vec<u8> {
    let slot = |i: usize| {
        [
            &[0, 1 + (i / 32) as u8, 1 + (i % 32) as u8, 1][..],
            &[0; 12],
        ]
        .concat()
    };
    (0..slots).flat_map(slot).collect()
}

#[test]
fn a_card_is_a_run_of_records_of_16_bytes_without_header() {
    assert!(good(&card(&[A])));
    assert!(good(&card(&[A, B, C])));
    assert!(!good(&[&[0], &card(&[A])[..]].concat()));
    assert!(!good(&[&[3], &card(&[A, B, C])[..]].concat()));
}

#[test]
fn a_card_has_at_most_256_slots() {
    assert!(good(&filled(255)) && good(&filled(256)) && good(&[0; 4096]));
    assert!(!good(&filled(257)) && !good(&[0; 4112]) && !good(&[0; 8192]));
}

#[test]
fn bytes_0_and_1_are_the_recipe_1_to_65535() {
    for (slot, yes) in [
        ("0000 01 01 2EE0 0258 0000 000000000000", false),
        ("0001 01 01 2EE0 0258 0000 000000000000", true),
        ("00FF 01 01 2EE0 0258 0000 000000000000", true),
        ("0100 01 01 2EE0 0258 0000 000000000000", true),
        ("FFFF 01 01 2EE0 0258 0000 000000000000", true),
    ] {
        assert_eq!(good(&hex(slot)), yes, "{slot}");
    }
    let card = hex("0102 01 01 2EE0 0258 0000 000000000000");
    assert_eq!(find(&card, 258, 1), card);
    assert_eq!(find(&card, 513, 1), []);
}

#[test]
fn byte_2_is_the_segment_1_to_32() {
    for (slot, yes) in [
        ("0001 00 01 2EE0 0258 0000 000000000000", false),
        ("0001 01 01 2EE0 0258 0000 000000000000", true),
        ("0001 20 01 2EE0 0258 0000 000000000000", true),
        ("0001 21 01 2EE0 0258 0000 000000000000", false),
        ("0001 FF 01 2EE0 0258 0000 000000000000", false),
    ] {
        assert_eq!(good(&hex(slot)), yes, "{slot}");
    }
    let card = hex("0001 20 01 2EE0 0258 0000 000000000000");
    assert_eq!(find(&card, 1, 32), card);
}

#[test]
fn byte_3_is_the_kind_1_climb_2_hold_3_drop() {
    for (slot, yes) in [
        ("0001 01 00 2EE0 0258 0000 000000000000", false),
        ("0001 01 01 2EE0 0258 0000 000000000000", true),
        ("0001 01 02 2EE0 0258 0000 000000000000", true),
        ("0001 01 03 2EE0 0258 0000 000000000000", true),
        ("0001 01 04 2EE0 0258 0000 000000000000", false),
        ("0001 01 FF 2EE0 0258 0000 000000000000", false),
    ] {
        assert_eq!(good(&hex(slot)), yes, "{slot}");
    }
}

/// 13,500 is 34BC.
#[test]
fn bytes_4_and_5_are_the_target_of_at_most_13500() {
    for (slot, yes) in [
        ("0001 01 01 0000 0258 0000 000000000000", true),
        ("0001 01 01 00FF 0258 0000 000000000000", true),
        ("0001 01 01 34BC 0258 0000 000000000000", true),
        ("0001 01 01 34BD 0258 0000 000000000000", false),
        ("0001 01 01 3500 0258 0000 000000000000", false),
        ("0001 01 01 FFFF 0258 0000 000000000000", false),
    ] {
        assert_eq!(good(&hex(slot)), yes, "{slot}");
    }
}

#[test]
fn rate_and_hold_are_any_for_every_kind() {
    for kind in ["01", "02", "03"] {
        for rate in ["0000", "0001", "FFFF"] {
            for hold in ["0000", "0001", "FFFF"] {
                let slot = format!("0001 01 {kind} 2EE0 {rate} {hold} 000000000000");
                assert!(good(&hex(&slot)), "{slot}");
            }
        }
    }
}

#[test]
fn bytes_10_to_15_are_zero() {
    for place in 10..16 {
        for byte in [0x01, 0x80, 0xFF] {
            let mut slot = hex(A);
            slot[place] = byte;
            assert!(!good(&slot), "{place} {byte}");
        }
    }
}

#[test]
fn a_bad_slot_makes_the_card_bad_wherever_it_stands() {
    let bad = "0001 21 01 2EE0 0258 0000 000000000000";
    assert!(!good(&card(&[bad, B, C])));
    assert!(!good(&card(&[B, bad, C])));
    assert!(!good(&card(&[B, C, bad])));
    assert!(!good(&card(&[EMPTY, bad])));
    let mut last = filled(256);
    last[4095] = 1;
    assert!(!good(&last));
}

#[test]
fn an_all_zero_slot_is_empty() {
    assert!(good(&card(&[EMPTY])));
    assert!(good(&card(&[EMPTY, EMPTY, EMPTY])));
    assert!(good(&card(&[EMPTY, A, EMPTY, EMPTY, B, EMPTY])));
    for place in 0..16 {
        let mut slot = hex(EMPTY);
        slot[place] = 1;
        assert!(!good(&[hex(EMPTY), slot].concat()), "{place}");
    }
}

#[test]
fn no_recipe_and_segment_stands_twice() {
    assert!(!good(&card(&[A, A])));
    assert!(!good(&card(&[A, A_AGAIN])));
    assert!(!good(&card(&[A, B, C, A])));
    assert!(!good(&card(&[A_AGAIN, EMPTY, B, EMPTY, A])));
    assert!(good(&card(&[A, B])));
    assert!(good(&card(&[A, C])));
    assert!(good(&card(&[A_AGAIN, EMPTY, B, C])));
    let mut ends = filled(256);
    ends.copy_within(0..3, 4080);
    assert!(!good(&ends));
}

#[test]
fn a_card_is_bad_if_its_length_is_not_a_multiple_of_16() {
    let bytes = card(&[A, B, C]);
    for length in 0..=48 {
        assert_eq!(good(&bytes[..length]), [0, 16, 32, 48].contains(&length));
        assert_eq!(good(&vec![0; length]), [0, 16, 32, 48].contains(&length));
    }
}

#[test]
fn a_card_is_bad_if_its_length_is_over_4096() {
    assert!(good(&filled(256)));
    assert!(!good(&[filled(256), hex(EMPTY)].concat()));
    assert!(!good(&filled(257)));
    assert!(!good(&[&filled(256)[..], &[0]].concat()));
}

#[test]
fn a_card_of_no_bytes_is_good() {
    assert!(good(&[]));
}

#[test]
fn a_record_to_be_put_is_bad_if_it_is_not_16_bytes() {
    let room = card(&[EMPTY, EMPTY, EMPTY]);
    let three = card(&[A, B, C]);
    for length in (0..=48).filter(|&length| length != 16) {
        is_refused(&room, &three[..length], 13);
    }
}

#[test]
fn a_record_to_be_put_is_bad_if_it_breaks_the_rules() {
    for record in [
        "0000 01 01 2EE0 0258 0000 000000000000",
        "0001 00 01 2EE0 0258 0000 000000000000",
        "0001 21 01 2EE0 0258 0000 000000000000",
        "0001 01 00 2EE0 0258 0000 000000000000",
        "0001 01 04 2EE0 0258 0000 000000000000",
        "0001 01 01 34BD 0258 0000 000000000000",
        "0001 01 01 2EE0 0258 0000 010000000000",
        "0001 01 01 2EE0 0258 0000 000000000001",
    ] {
        is_refused(&card(&[EMPTY]), &hex(record), 13);
        is_refused(&card(&[A, EMPTY]), &hex(record), 13);
    }
}

#[test]
fn a_record_to_be_put_is_bad_if_it_is_all_zero() {
    is_refused(&card(&[EMPTY]), &hex(EMPTY), 13);
    is_refused(&card(&[A, B]), &hex(EMPTY), 13);
    is_refused(&[], &hex(EMPTY), 13);
}

#[test]
fn an_empty_slot_is_never_found_not_even_under_recipe_0() {
    for slots in [&[EMPTY][..], &[EMPTY, A], &[A, EMPTY], &[EMPTY, EMPTY, B]] {
        for (recipe, segment) in [(0, 0), (0, 1), (1, 0), (0, 2), (0, 32)] {
            assert_eq!(find(&card(slots), recipe, segment), []);
        }
    }
}

#[test]
fn finding_hands_back_that_very_slot_of_the_lent_card() {
    let card = card(&[A, EMPTY, B, C]);
    for (recipe, segment, place, slot) in [(1, 1, 0, A), (1, 2, 2, B), (2, 1, 3, C)] {
        let found = find(&card, recipe, segment);
        assert_eq!(found, hex(slot));
        assert_eq!(found.as_ptr(), card[16 * place..].as_ptr());
    }
}

#[test]
fn finding_hands_back_an_empty_part_if_there_is_none() {
    let card = card(&[A, EMPTY, B, C]);
    for (recipe, segment) in [(2, 2), (1, 3), (3, 1), (0, 0)] {
        assert_eq!(find(&card, recipe, segment), []);
    }
    assert_eq!(find(&[], 1, 1), []);
}

#[test]
fn finding_hands_back_an_empty_part_if_the_card_is_bad() {
    let bad = "0009 21 01 2EE0 0258 0000 000000000000";
    assert_eq!(find(&card(&[A, bad]), 1, 1), []);
    assert_eq!(find(&card(&[A, bad]), 9, 33), []);
    assert_eq!(find(&card(&[A, B, A_AGAIN]), 1, 1), []);
    assert_eq!(find(&card(&[A, B, A_AGAIN]), 1, 2), []);
    assert_eq!(find(&card(&[A, B])[..31], 1, 1), []);
    assert_eq!(find(&[filled(256), hex(EMPTY)].concat(), 1, 1), []);
}

/// The readings, numbers handed in: they are wide, and only equal ones are equal.
#[test]
fn a_number_that_merely_ends_in_the_right_one_finds_nothing() {
    let card = card(&[A, B, C]);
    for shift in [16, 17, 32, 63] {
        assert_eq!(find(&card, (1 << shift) + 1, 1), []);
    }
    for shift in [8, 9, 16, 32, 63] {
        assert_eq!(find(&card, 1, (1 << shift) + 1), []);
    }
    assert_eq!(find(&card, 0, 257), []);
    assert_eq!(find(&card, (1 << 56) + 1, 1), []);
    assert_eq!(find(&card, u64::MAX, u64::MAX), []);
}

#[test]
fn putting_a_record_replaces_its_namesake() {
    is_put(&[A, B, C], A_AGAIN, &[A_AGAIN, B, C]);
    is_put(&[B, A, C], A_AGAIN, &[B, A_AGAIN, C]);
    is_put(&[B, C, A], A_AGAIN, &[B, C, A_AGAIN]);
    is_put(&[A, B, C], A, &[A, B, C]);
}

#[test]
fn a_namesake_wins_over_an_earlier_empty_slot() {
    is_put(&[EMPTY, A], A_AGAIN, &[EMPTY, A_AGAIN]);
    is_put(&[EMPTY, B, EMPTY, A], A_AGAIN, &[EMPTY, B, EMPTY, A_AGAIN]);
}

#[test]
fn putting_a_record_else_takes_the_first_empty_slot() {
    is_put(&[EMPTY, EMPTY, B], A, &[A, EMPTY, B]);
    is_put(&[B, EMPTY, EMPTY], A, &[B, A, EMPTY]);
    is_put(&[B, C, EMPTY], A, &[B, C, A]);
    is_put(&[EMPTY], A, &[A]);
}

#[test]
fn refusal_14_no_empty_slot_and_no_namesake() {
    is_refused(&card(&[B]), &hex(A), 14);
    is_refused(&card(&[B, C]), &hex(A), 14);
    is_refused(
        &filled(256),
        &hex("0009 01 01 0000 0000 0000 000000000000"),
        14,
    );
}

#[test]
fn a_put_never_lengthens_a_card_and_one_of_no_bytes_answers_14() {
    is_refused(&[], &hex(A), 14);
}

#[test]
fn refusals_come_in_the_order_12_13_14() {
    let bad = "0009 21 01 2EE0 0258 0000 000000000000";
    for slots in [&[bad][..], &[bad, EMPTY], &[B, B], &[A, A, EMPTY]] {
        is_refused(&card(slots), &hex(A), 12);
        is_refused(&card(slots), &hex(bad), 12);
        is_refused(&card(slots), &[], 12);
    }
    for slots in [&[B, C][..], &[B, EMPTY], &[]] {
        is_refused(&card(slots), &hex(bad), 13);
        is_refused(&card(slots), &hex(EMPTY), 13);
        is_refused(&card(slots), &[], 13);
    }
    is_refused(&card(&[A, EMPTY])[..31], &hex(A), 12);
    is_refused(&card(&[B, C]), &hex(A), 14);
}

/// Recipes 1 to 3 and segments 1 to 3 with any other numbers.
fn any_record(random: &mut Random) -> Vec<u8> {
    let [recipe, segment, kind] = [(); 3].map(|()| 1 + random.below(3) as u8);
    let target = (random.below(13_501) as u16).to_be_bytes();
    let rate_and_hold: [u8; 4] = random.array();
    let numbers = [&[0, recipe, segment, kind][..], &target, &rate_and_hold];
    [numbers.concat(), vec![0; 6]].concat()
}

fn any_good_card(random: &mut Random) -> Vec<u8> {
    good_card(random, any_record, 9, 4)
}

fn any_card(random: &mut Random) -> Vec<u8> {
    let card = any_good_card(random);
    damaged(random, card)
}

fn slots(card: &[u8]) -> Vec<&[u8]> {
    card.chunks(16).collect()
}

fn is_empty(slot: &[u8]) -> bool {
    slot.iter().all(|&byte| byte == 0)
}

/// The request as a page of conditions: every slot by itself, then every two slots.
fn good_by_every_two_slots(card: &[u8]) -> bool {
    let slots = slots(card);
    let keeps_the_rules = |slot: &[u8]| {
        (slot[0] != 0 || slot[1] != 0)
            && (1..=32).contains(&slot[2])
            && (1..=3).contains(&slot[3])
            && (slot[4] < 52 || (slot[4] == 52 && slot[5] <= 188))
            && is_empty(&slot[10..])
    };
    let two_alike = |i: usize, j: usize| !is_empty(slots[i]) && slots[i][..3] == slots[j][..3];
    card.len() % 16 == 0
        && card.len() <= 4096
        && slots
            .iter()
            .all(|slot| is_empty(slot) || keeps_the_rules(slot))
        && !(0..slots.len()).any(|j| (0..j).any(|i| two_alike(i, j)))
}

#[test]
fn good_is_what_every_two_slots_say() {
    let random = &mut Random::seeded(81);
    let mut seen = [0, 0];
    for _ in 0..20_000 {
        let card = any_card(random);
        assert_eq!(good(&card), good_by_every_two_slots(&card), "{card:02X?}");
        seen[usize::from(good(&card))] += 1;
    }
    assert!(seen[0] > 5_000 && seen[1] > 5_000, "{seen:?}");
}

/// Good cards with good records, and what the put gives.
fn accepted_and_14(random: &mut Random) -> (Vec<u8>, Vec<u8>, u8, Vec<u8>) {
    let (card, record) = (any_good_card(random), any_record(random));
    let back = put(&card, &record);
    (card, record, back.answer.number(), back.card)
}

fn all_pairs() -> impl Iterator<Item = (u64, u64)> {
    (0..16).map(|i| (i / 4, i % 4))
}

fn pair(record: &[u8]) -> (u64, u64) {
    (record[1].into(), record[2].into())
}

#[test]
fn a_put_on_a_good_card_leaves_a_good_card_of_the_same_length() {
    let random = &mut Random::seeded(82);
    for _ in 0..5_000 {
        let (card, _, answer, after) = accepted_and_14(random);
        assert!(good(&card) && good(&after) && (answer == 0 || answer == 14));
        assert_eq!(card.len(), after.len());
    }
}

#[test]
fn what_was_put_is_found() {
    let random = &mut Random::seeded(83);
    for _ in 0..5_000 {
        let (_, record, answer, after) = accepted_and_14(random);
        let (recipe, segment) = pair(&record);
        let found = find(&after, recipe, segment);
        assert_eq!(found, if answer == 0 { &record[..] } else { &[] });
    }
}

#[test]
fn every_other_pair_is_found_as_before() {
    let random = &mut Random::seeded(84);
    for _ in 0..2_000 {
        let (card, record, _, after) = accepted_and_14(random);
        for other in all_pairs().filter(|&other| other != pair(&record)) {
            assert_eq!(
                find(&after, other.0, other.1),
                find(&card, other.0, other.1)
            );
        }
    }
}

#[test]
fn putting_twice_is_putting_once() {
    let random = &mut Random::seeded(85);
    for _ in 0..5_000 {
        let (_, record, answer, after) = accepted_and_14(random);
        let again = put(&after, &record);
        assert_eq!((again.answer.number(), again.card), (answer, after));
    }
}

#[test]
fn an_accepted_put_changes_one_slot_only_and_the_right_one() {
    let random = &mut Random::seeded(86);
    let mut seen = [0, 0];
    for _ in 0..5_000 {
        let (card, record, answer, after) = accepted_and_14(random);
        let (before, after) = (slots(&card), slots(&after));
        let namesake = before.iter().position(|slot| slot[..3] == record[..3]);
        let empty = before.iter().position(|slot| is_empty(slot));
        let place = namesake.or(empty);
        assert_eq!(answer, if place.is_some() { 0 } else { 14 });
        for (i, slot) in before.iter().enumerate() {
            let expected = if place == Some(i) { &record } else { *slot };
            assert_eq!(after[i], expected);
        }
        seen[usize::from(namesake.is_some())] += 1;
    }
    assert!(seen[0] > 500 && seen[1] > 500, "{seen:?}");
}

#[test]
fn refused_puts_keep_the_bytes() {
    let random = &mut Random::seeded(87);
    let mut seen = [0; 15];
    for _ in 0..10_000 {
        let card = any_card(random);
        let mut record = any_record(random);
        let place = random.below(64);
        if place < 16 {
            record[place] = random.byte();
        }
        let back = put(&card, &record);
        let answer = back.answer.number();
        assert!(answer == 0 || back.card == card);
        assert_eq!(answer == 12, !good(&card));
        seen[usize::from(answer)] += 1;
    }
    let all = [0, 12, 13, 14].iter().all(|&answer| seen[answer] > 100);
    assert!(all, "{seen:?}");
}

#[test]
fn found_is_exactly_what_stands_on_a_good_card() {
    let random = &mut Random::seeded(88);
    for _ in 0..5_000 {
        let card = any_card(random);
        for (recipe, segment) in all_pairs() {
            let front = [0, recipe as u8, segment as u8];
            let stands = |slot: &&[u8]| !is_empty(slot) && slot.starts_with(&front);
            let slot = slots(&card).into_iter().find(stands);
            let expected = slot.filter(|_| good(&card)).unwrap_or_default();
            assert_eq!(find(&card, recipe, segment), expected);
        }
    }
}

#[test]
fn a_full_card_refuses_exactly_the_pairs_it_lacks() {
    for slots in [0, 1, 5, 32, 33, 256] {
        let card = filled(slots);
        for recipe in 1..=9 {
            for segment in 1..=32 {
                let record = [&[0, recipe, segment, 2, 0, 1][..], &[0; 10]].concat();
                let there = 32 * usize::from(recipe - 1) + usize::from(segment) <= slots;
                let answer = put(&card, &record).answer.number();
                assert_eq!(answer, if there { 0 } else { 14 });
            }
        }
    }
}
