//! The replay of cards compared: the call byte by byte, and what the compares part of the
//! script covers.
//! Follows the page on replay, 'Request 6', and document 02, requests 1 and 6.

mod compared_by_pairs;
mod script_calls;

use compared_by_pairs::list;
use script_calls::calls;
use second::card::good;
use second::replay::call::Call;
use second::replay::interpreter::Kept;
use second::replay::{run, script, Extent};
use std::collections::BTreeSet;

fn hex(text: &str) -> Vec<u8> {
    let digits: String = text.split_whitespace().collect();
    (0..digits.len() / 2)
        .map(|i| u8::from_str_radix(&digits[2 * i..2 * i + 2], 16).unwrap())
        .collect()
}

const SLOT: &str = "000101022EE00258001E000000000000";
const AGAIN: &str = "000101022EE10258001E000000000000";
const EMPTY: &str = "00000000000000000000000000000000";

#[test]
fn compare_byte_by_byte() {
    let script = format!(
        "14 00000010 {SLOT} 00000020 {EMPTY} {AGAIN} 00000006 5A
         14 00000010 {SLOT} 00000020 {EMPTY} {AGAIN} 00000003 5B
         14 00000020 {SLOT} {AGAIN} 00000000 00000002 5C
         14 00000000 00000000 00000000 5D
         14 00000000 00000010 {SLOT} 00000004 5E
         14 00000010 {SLOT} 00000001 00 00000000 5F"
    );
    let expected = "00 0000000000000004 00010103 5A5A
         09 0000000000000000 5B5B5B
         0C 0000000000000000 5C5C
         00 0000000000000000
         00 0000000000000004 00010102
         0C 0000000000000000";
    assert_eq!(run(&hex(&script)), hex(expected));
}

/// One call of the part, and what is written for it.
struct Made {
    first: Vec<u8>,
    second: Vec<u8>,
    room: usize,
    filler: u8,
    back: Vec<u8>,
}

impl Made {
    fn answer(&self) -> u8 {
        self.back[0]
    }

    /// The list that was written.
    fn listed(&self) -> &[u8] {
        let written = u64::from_be_bytes(self.back[1..9].try_into().unwrap());
        &self.back[9..9 + written as usize]
    }
}

fn made() -> Vec<Made> {
    let (mut kept, mut made) = (Kept::ZERO, Vec::new());
    for call in calls(&script(Extent::Whole)) {
        if let Call::Compare { cards, buffer } = &call {
            let [first, second] = cards.clone();
            made.push(Made {
                first,
                second,
                room: buffer.room,
                filler: buffer.filler,
                back: kept.make(call),
            });
        }
    }
    made
}

fn done() -> Vec<Made> {
    made()
        .into_iter()
        .filter(|made| made.answer() == 0)
        .collect()
}

#[test]
fn every_call_is_answered_as_it_is_pair_by_pair() {
    for made in made() {
        let both_good = good(&made.first) && good(&made.second);
        let (answer, list) = match both_good.then(|| list(&made.first, &made.second)) {
            None => (12, vec![]),
            Some(list) if list.len() > made.room => (9, vec![]),
            Some(list) => (0, list),
        };
        let behind = vec![made.filler; made.room - list.len()];
        let written = (list.len() as u64).to_be_bytes();
        assert!(made.back == [&[answer], &written[..], &list, &behind].concat());
    }
}

fn filled(card: &[u8]) -> BTreeSet<&[u8]> {
    let slots = card.chunks(16);
    slots.filter(|slot| *slot != [0; 16]).collect()
}

const SIZES: [usize; 8] = [0, 1, 2, 3, 16, 64, 255, 256];

/// Copies and shuffles, then copies with one put: a new pair, or other contents.
#[test]
fn cards_of_every_size_are_compared_with_copies_of_themselves() {
    let mut same: BTreeSet<usize> = BTreeSet::new();
    let mut one: BTreeSet<(usize, u8)> = BTreeSet::new();
    for made in done() {
        let slots = filled(&made.first).len();
        match made.listed() {
            [] => same.insert(slots),
            [.., mark] if made.listed().len() == 4 => one.insert((slots, *mark)),
            _ => continue,
        };
    }
    for size in SIZES {
        assert!(same.contains(&size), "{size}");
        assert!(size == 256 || one.contains(&(size, 2)), "{size}");
        assert!([0, 255].contains(&size) || one.contains(&(size, 3)));
    }
}

#[test]
fn shuffles_with_and_without_empty_slots_are_compared() {
    let mut found: BTreeSet<(usize, bool)> = BTreeSet::new();
    for made in done() {
        if filled(&made.first) == filled(&made.second) && made.first != made.second {
            let slots = filled(&made.first).len();
            found.insert((slots, made.first.len() == made.second.len()));
        }
    }
    for size in [1, 2, 3, 16, 64, 255] {
        assert!(found.contains(&(size, false)), "{size}");
    }
    assert!(found.contains(&(256, true)));
}

#[test]
fn every_two_sizes_next_to_each_other_are_compared() {
    let sizes = |made: &Made| (made.first.len() / 16, made.second.len() / 16);
    let found: BTreeSet<(usize, usize)> = done().iter().map(sizes).collect();
    for two in SIZES.windows(2) {
        assert!(found.contains(&(two[1], two[0])), "{two:?}");
        assert!(two[1] > 16 || found.contains(&(two[0], two[1])));
    }
}

/// In as much room as the list takes, in a byte less, in a byte more, in none.
#[test]
fn rooms_about_the_list_and_none_stand_in_the_script() {
    let mut seen = [0; 4];
    let example = hex("00010101 00010203 00020102");
    let mut of_example: BTreeSet<(usize, u8)> = BTreeSet::new();
    for made in made() {
        if !good(&made.first) || !good(&made.second) {
            continue;
        }
        let list = list(&made.first, &made.second);
        if !list.is_empty() {
            let (room, exact) = (made.room, list.len());
            let rooms = [exact, exact - 1, exact + 1, 0];
            (0..4).for_each(|i| seen[i] += usize::from(room == rooms[i]));
        }
        if list == example {
            of_example.insert((made.room, made.answer()));
        }
    }
    assert!(seen.iter().all(|&number| number > 20), "{seen:?}");
    for (room, answer) in [(0, 9), (11, 9), (12, 0), (13, 0), (267, 0), (8192, 0)] {
        assert!(of_example.contains(&(room, answer)), "{room}");
    }
}

/// Two cards of one record each that differ in one byte.
#[test]
fn every_byte_of_a_record_differs_alone() {
    let mut found: BTreeSet<(usize, Vec<u8>)> = BTreeSet::new();
    for made in done() {
        let two = made.first.iter().zip(&made.second);
        let places: Vec<usize> = (0..)
            .zip(two)
            .filter(|(_, (a, b))| a != b)
            .map(|(i, _)| i)
            .collect();
        if made.first.len() == 16 && made.second.len() == 16 && places.len() == 1 {
            let marks = made.listed().chunks(4).map(|record| record[3]).collect();
            found.insert((places[0], marks));
        }
    }
    for place in 0..10 {
        let marks: &[&[u8]] = match place {
            0..=2 => &[&[1, 2], &[2, 1]],
            _ => &[&[3]],
        };
        for marks in marks {
            assert!(found.contains(&(place, marks.to_vec())), "{place}");
        }
    }
}

/// Pairs that stand next to each other in a list.
#[test]
fn lists_go_across_255_and_256_up_to_65535_and_from_segment_1_to_32() {
    let mut found: BTreeSet<(Vec<u8>, Vec<u8>)> = BTreeSet::new();
    for made in done() {
        let pairs: Vec<Vec<u8>> = made.listed().chunks(4).map(|r| r[..3].to_vec()).collect();
        assert!(pairs.windows(2).all(|two| two[0] < two[1]));
        let two = pairs.windows(2).map(|two| (two[0].clone(), two[1].clone()));
        found.extend(two);
    }
    for (a, b) in [
        ("00FF 01", "0100 01"),
        ("00FF 20", "0100 01"),
        ("0001 01", "0101 01"),
        ("0001 20", "0101 01"),
        ("0100 01", "0101 20"),
        ("0005 01", "0005 20"),
        ("0001 20", "0020 01"),
        ("FF00 20", "FFFF 01"),
        ("0001 01", "FFFF 20"),
    ] {
        assert!(found.contains(&(hex(a), hex(b))), "{a} {b}");
    }
}

/// Why a card is bad, each cause by itself.
#[derive(Clone, Copy, Debug, PartialEq, Eq, PartialOrd, Ord)]
enum Cause {
    Length,
    TooLong,
    Recipe,
    SegmentZero,
    SegmentOver,
    KindZero,
    KindOver,
    Target,
    Tail,
    Stray,
    Twice,
}

const CAUSES: [Cause; 11] = [
    Cause::Length,
    Cause::TooLong,
    Cause::Recipe,
    Cause::SegmentZero,
    Cause::SegmentOver,
    Cause::KindZero,
    Cause::KindOver,
    Cause::Target,
    Cause::Tail,
    Cause::Stray,
    Cause::Twice,
];

fn causes_of_slot(slot: &[u8]) -> Vec<Cause> {
    let tail = slot[10..].iter().any(|&byte| byte != 0);
    if tail && slot[..10] == [0; 10] {
        return vec![Cause::Stray];
    }
    let target = u16::from_be_bytes([slot[4], slot[5]]);
    let causes = [
        (Cause::Recipe, slot[..2] == [0, 0]),
        (Cause::SegmentZero, slot[2] == 0),
        (Cause::SegmentOver, slot[2] > 32),
        (Cause::KindZero, slot[3] == 0),
        (Cause::KindOver, slot[3] > 3),
        (Cause::Target, target > 13_500),
        (Cause::Tail, tail),
    ];
    let applying = causes.into_iter().filter(|(_, applies)| *applies);
    applying.map(|(cause, _)| cause).collect()
}

fn causes(card: &[u8]) -> Vec<Cause> {
    let slots: Vec<&[u8]> = card.chunks_exact(16).collect();
    let filled: Vec<&[u8]> = slots.into_iter().filter(|slot| *slot != [0; 16]).collect();
    let pairs: BTreeSet<&[u8]> = filled.iter().map(|slot| &slot[..3]).collect();
    let mut causes: BTreeSet<Cause> = filled
        .iter()
        .flat_map(|slot| causes_of_slot(slot))
        .collect();
    causes.extend((card.len() % 16 != 0).then_some(Cause::Length));
    causes.extend((card.len() > 4096).then_some(Cause::TooLong));
    causes.extend((pairs.len() < filled.len()).then_some(Cause::Twice));
    causes.into_iter().collect()
}

/// On the first card, on the second, on both; with room and with none.
#[test]
fn each_cause_of_12_stands_alone_everywhere() {
    let mut found: BTreeSet<(Vec<Cause>, Vec<Cause>, bool)> = BTreeSet::new();
    for made in made() {
        let [first, second] = [&made.first, &made.second].map(|card| causes(card));
        assert_eq!(first.is_empty(), good(&made.first));
        found.insert((first, second, made.room > 0));
    }
    for cause in CAUSES {
        for room in [false, true] {
            for (first, second) in [(true, false), (false, true), (true, true)] {
                let [first, second] = [first, second].map(|bad| vec![cause; usize::from(bad)]);
                assert!(found.contains(&(first, second, room)), "{cause:?} {room}");
            }
        }
    }
    let both_bad = found
        .iter()
        .filter(|(a, b, _)| a.len() == 1 && b.len() == 1);
    assert!(both_bad.count() >= 2 * 8 * 8);
}

/// The places of the two slots of a pair that stands twice, and whether they are the same.
fn twice(card: &[u8]) -> Option<(usize, usize, bool)> {
    let slots: Vec<&[u8]> = card.chunks_exact(16).collect();
    for (j, last) in slots.iter().enumerate() {
        let first = slots[..j].iter().position(|slot| slot[..3] == last[..3]);
        if let (Some(i), true) = (first, last[2] != 0) {
            return Some((i, j, slots[i] == *last));
        }
    }
    None
}

/// Next to each other, far apart, first and last: which card, and the same contents.
#[test]
fn pairs_stand_twice_everywhere() {
    let mut found: BTreeSet<(usize, (usize, usize), u8, bool)> = BTreeSet::new();
    for made in made() {
        for (card, which) in [(&made.first, 1), (&made.second, 2)] {
            if let Some((i, j, same)) = twice(card) {
                found.insert((card.len() / 16, (i, j), which, same));
            }
        }
    }
    for (slots, places) in [
        (2, (0, 1)),
        (3, (0, 1)),
        (3, (1, 2)),
        (3, (0, 2)),
        (5, (0, 4)),
        (20, (9, 10)),
        (20, (1, 18)),
        (20, (0, 19)),
    ] {
        for which in [1, 2] {
            for same in [false, true] {
                assert!(found.contains(&(slots, places, which, same)), "{slots}");
            }
        }
    }
    assert!(found.contains(&(256, (0, 255), 1, true)));
    assert!(found.contains(&(256, (0, 255), 2, false)));
    assert!(found.contains(&(256, (254, 255), 2, false)));
}

/// How many pairs two whole cards have in common, and how many records.
#[test]
fn whole_cards_agree_in_all_in_half_and_in_none() {
    let mut found: BTreeSet<(usize, usize)> = BTreeSet::new();
    for made in done() {
        let (first, second) = (filled(&made.first), filled(&made.second));
        if first.len() == 256 && second.len() == 256 {
            let pairs = |card: &BTreeSet<&[u8]>| -> BTreeSet<Vec<u8>> {
                card.iter().map(|slot| slot[..3].to_vec()).collect()
            };
            let common = pairs(&first).intersection(&pairs(&second)).count();
            found.insert((common, first.intersection(&second).count()));
        }
    }
    for (pairs, records) in [
        (256, 256),
        (256, 255),
        (256, 128),
        (256, 0),
        (128, 128),
        (0, 0),
    ] {
        assert!(found.contains(&(pairs, records)), "{pairs} {records}");
    }
}
