//! The replay of blank keys: the two calls byte by byte, what the blanks part of the script
//! covers, and wrong programs that it tells from a right one.
//! Follows document 02, request 7, and the page on replay, 'Request 7'.

mod made_calls;
mod script_calls;

use made_calls::made;
use second::cipher::{schedule_of, set_up, used, Schedule};
use second::replay::call::Call;
use second::replay::ciphers::{ALL, LEGAL};
use second::replay::record::schedule_from;
use second::replay::{run, script, Extent};
use std::collections::{BTreeMap, BTreeSet};

#[test]
fn blank_keys_byte_by_byte() {
    let string = [&[0, 0, 0, 16][..], &[0xFF; 16]].concat();
    let set_up = [&[1, 0, 0, 0, 0, 0, 0, 0, 3][..], &string].concat();
    let block = [&[2][..], &string, &[0, 0, 0, 2, 0x5A]].concat();
    let entry = [
        &[7, 0, 0, 0, 0, 0, 0, 0, 3][..],
        &[0, 0, 0, 0, 0, 0, 0, 1],
        &string,
        &string,
        &[0, 0, 0, 16, 0x5A],
    ]
    .concat();
    let answers = run(&[set_up, block, entry].concat());
    let expected = [&[17][..], &[0; 290], &[5, 0x5A, 0x5A], &[17], &[0x5A; 16]];
    assert_eq!(answers, expected.concat());
}

/// The calls of the part, with what is written for each: all behind the last comparison.
fn part() -> Vec<(Call, Vec<u8>)> {
    let script = script(Extent::Whole);
    let mut all = made(&script, &run(&script));
    let last = all.iter().rposition(|(call, _)| call.number() == 0x14);
    all.split_off(last.unwrap() + 1)
}

#[test]
fn the_part_has_its_answers() {
    let mut found: BTreeMap<(u8, u8), usize> = BTreeMap::new();
    for (call, back) in part() {
        if let Some(&answer) = back.first() {
            *found.entry((call.number(), answer)).or_default() += 1;
        }
    }
    let expected = BTreeMap::from([
        ((1, 0), 296),
        ((1, 1), 14),
        ((1, 2), 36),
        ((1, 17), 48),
        ((2, 0), 89),
        ((2, 5), 22),
        ((3, 0), 89),
        ((3, 5), 33),
        ((4, 0), 22),
        ((4, 5), 55),
        ((5, 0), 44),
        ((5, 6), 8),
        ((6, 0), 22),
        ((7, 0), 79),
        ((7, 1), 270),
        ((7, 2), 164),
        ((7, 4), 32),
        ((7, 9), 8),
        ((7, 11), 55),
        ((7, 17), 2112),
        ((0x0D, 0), 22),
        ((0x0D, 5), 15),
        ((0x0E, 0), 22),
        ((0x0F, 0), 22),
    ]);
    assert_eq!(found, expected);
}

/// A set-up (1) or an entry (7): what it is handed, and what is written for it. A set-up has
/// no direction, block or room, and so breaks no rule of theirs.
struct Keyed {
    call: u8,
    cipher: u64,
    key: Vec<u8>,
    direction: u64,
    block: Vec<u8>,
    out: Vec<u8>,
    back: Vec<u8>,
}

impl Keyed {
    fn of(call: Call, back: Vec<u8>) -> Option<Keyed> {
        let number = call.number();
        let (cipher, direction, key, block, out) = match call {
            Call::SetUp { cipher, key } => (cipher, 1, key, vec![0; 16], vec![0; 290]),
            Call::Entry {
                cipher,
                direction,
                key,
                block,
                buffer,
            } => (cipher, direction, key, block, buffer.bytes()),
            _ => return None,
        };
        Some(Keyed {
            call: number,
            cipher,
            key,
            direction,
            block,
            out,
            back,
        })
    }

    fn has_known_cipher(&self) -> bool {
        (1..=4).contains(&self.cipher)
    }

    /// For an unknown cipher, as for most.
    fn has_legal_length(&self) -> bool {
        match self.cipher {
            3 | 4 => self.key.len() == 16,
            _ => [16, 24, 32].contains(&self.key.len()),
        }
    }

    /// The cipher and key length, if they are legal.
    fn kind(&self) -> Option<(u8, u8)> {
        let legal = self.has_known_cipher() && self.has_legal_length();
        legal.then_some((self.cipher as u8, self.key.len() as u8))
    }

    /// Whether the cause of this refusal applies, with these keys for blank.
    fn has(&self, refusal: u8, blank: fn(&[u8]) -> bool) -> bool {
        match refusal {
            1 => !self.has_known_cipher(),
            2 => !self.has_legal_length(),
            17 => blank(&self.key),
            4 => !(1..=2).contains(&self.direction),
            11 => self.block.len() != 16,
            _ => self.out.len() < 16,
        }
    }
}

fn keyed() -> Vec<Keyed> {
    let part = part().into_iter();
    part.filter_map(|(call, back)| Keyed::of(call, back))
        .collect()
}

/// What a program takes for a blank key, and the order of its refusals.
struct Rule {
    name: &'static str,
    blank: fn(&[u8]) -> bool,
    order: [u8; 6],
}

const ORDER: [u8; 6] = [1, 2, 17, 4, 11, 9];

fn all_equal(bytes: &[u8]) -> bool {
    bytes.windows(2).all(|two| two[0] == two[1])
}

/// How often the byte stands in the key that stands there most often.
fn most(key: &[u8]) -> usize {
    let times = |byte: &u8| key.iter().filter(|other| *other == byte).count();
    key.iter().map(times).max().unwrap_or(0)
}

const RIGHT: Rule = Rule {
    name: "a right one",
    blank: all_equal,
    order: ORDER,
};

impl Rule {
    const fn for_blank(name: &'static str, blank: fn(&[u8]) -> bool) -> Rule {
        let order = ORDER;
        Rule { name, blank, order }
    }

    const fn in_order(name: &'static str, order: [u8; 6]) -> Rule {
        let blank = all_equal;
        Rule { name, blank, order }
    }

    fn answer(&self, keyed: &Keyed) -> u8 {
        let mut order = self.order.into_iter();
        let first = order.find(|&refusal| keyed.has(refusal, self.blank));
        first.unwrap_or(0)
    }

    /// Which call, cipher and key length it answers otherwise than the script's answers say.
    fn seen(&self) -> BTreeSet<(u8, u64, usize)> {
        let keyed = keyed().into_iter();
        keyed
            .filter(|keyed| self.answer(keyed) != keyed.back[0])
            .map(|keyed| (keyed.call, keyed.cipher, keyed.key.len()))
            .collect()
    }
}

#[test]
fn every_call_is_answered_by_the_rule_and_refused_writes_nothing() {
    assert_eq!(RIGHT.seen(), BTreeSet::new(), "{}", RIGHT.name);
    for keyed in keyed() {
        let expected = match (keyed.back[0], keyed.kind()) {
            (0, Some((cipher, _))) => worked(&keyed, &schedule_of(cipher, &keyed.key)),
            _ => keyed.out,
        };
        assert!(keyed.back[1..] == expected);
    }
}

/// What is written behind answer 0: the schedule, or the block and the rest of the buffer.
fn worked(keyed: &Keyed, schedule: &Schedule) -> Vec<u8> {
    if keyed.call == 1 {
        let head = [schedule.cipher, schedule.key_length];
        return [&head[..], &schedule.round_keys].concat();
    }
    let block = keyed.block[..].try_into().unwrap();
    let block = match keyed.direction {
        1 => schedule.encipher(block),
        _ => schedule.decipher(block),
    };
    [&block[..], &keyed.out[16..]].concat()
}

/// The wrong programs of the request first.
const WRONG_KEYS: [Rule; 10] = [
    Rule::for_blank("refuses only FF", |key| {
        all_equal(key) && key.first() == Some(&0xFF)
    }),
    Rule::for_blank("looks at the first two bytes", |key| {
        key.len() > 1 && key[0] == key[1]
    }),
    Rule::for_blank("refuses a key in which one byte differs", |key| {
        most(key) + 1 >= key.len()
    }),
    Rule::for_blank("the last byte not looked at", |key| {
        !key.is_empty() && all_equal(&key[..key.len() - 1])
    }),
    Rule::for_blank("the first byte not looked at", |key| {
        !key.is_empty() && all_equal(&key[1..])
    }),
    Rule::for_blank("refuses only 00", |key| {
        all_equal(key) && key.first() == Some(&0x00)
    }),
    Rule::for_blank("refuses no key", |_| false),
    Rule::for_blank("looks at every other byte", |key| {
        let even: Vec<u8> = key.iter().copied().step_by(2).collect();
        all_equal(&even)
    }),
    Rule::for_blank("looks at the first byte of each word", |key| {
        let first: Vec<u8> = key.iter().copied().step_by(4).collect();
        all_equal(&first)
    }),
    Rule::for_blank("looks at the ends", |key| key.first() == key.last()),
];

#[test]
fn what_a_wrong_program_takes_for_blank_is_seen_everywhere() {
    for wrong in WRONG_KEYS {
        let seen = wrong.seen();
        for (cipher, length) in LEGAL {
            for call in [1, 7] {
                let case = (call, cipher.into(), length.into());
                assert!(seen.contains(&case), "{}: {case:?}", wrong.name);
            }
        }
    }
}

/// A program that looks at 16 bytes only is right about keys of 16.
#[test]
fn a_wrong_program_that_looks_at_16_bytes_is_seen_with_longer_keys() {
    let wrong = Rule::for_blank("looks at 16 bytes", |key| {
        key.len() > 15 && all_equal(&key[..16])
    });
    let seen = wrong.seen();
    for (cipher, length) in LEGAL {
        let case = (1, cipher.into(), length.into());
        assert_eq!(seen.contains(&case), length > 16);
    }
}

/// 17 in another place of the order, and the calls that show it.
#[test]
fn a_wrong_order_is_seen_with_every_cipher() {
    let both: &[u8] = &[1, 7];
    for (wrong, calls) in [
        (Rule::in_order("17 before 2", [1, 17, 2, 4, 11, 9]), both),
        (Rule::in_order("17 after 4", [1, 2, 4, 17, 11, 9]), &[7]),
        (Rule::in_order("17 after 11", [1, 2, 4, 11, 17, 9]), &[7]),
        (Rule::in_order("17 after 9", [1, 2, 4, 11, 9, 17]), &[7]),
    ] {
        let seen = wrong.seen().into_iter();
        let seen: BTreeSet<(u8, u64)> = seen.map(|(call, cipher, _)| (call, cipher)).collect();
        let ciphers = |call: &u8| [1, 2, 3, 4].map(|cipher| (*call, cipher));
        let expected: BTreeSet<(u8, u64)> = calls.iter().flat_map(ciphers).collect();
        assert_eq!(seen, expected, "{}", wrong.name);
    }
}

#[test]
fn a_17_before_1_is_seen_with_every_unknown_cipher() {
    let wrong = Rule::in_order("17 before 1", [17, 1, 2, 4, 11, 9]);
    let seen = wrong.seen();
    for &cipher in ALL.illegal {
        for call in [1, 7] {
            assert!(seen.contains(&(call, cipher, 15)) && seen.contains(&(call, cipher, 16)));
        }
    }
}

#[test]
fn every_byte_value_is_refused_at_every_legal_length() {
    let mut found: BTreeMap<(u8, u8), BTreeSet<u8>> = BTreeMap::new();
    for keyed in keyed() {
        if let (7, 17, Some(kind)) = (keyed.call, keyed.back[0], keyed.kind()) {
            found.entry(kind).or_default().insert(keyed.key[0]);
        }
    }
    assert_eq!(found.len(), LEGAL.len());
    assert!(found.values().all(|bytes| bytes.len() == 256));
}

/// A key is taken before it, and a block and a start show that nothing is left of that one.
#[test]
fn each_refused_set_up_leaves_the_schedule_of_zeros() {
    let mut found: BTreeSet<((u8, u8), u8)> = BTreeSet::new();
    for four in part().windows(4) {
        let answers: Vec<u8> = four
            .iter()
            .flat_map(|(_, back)| back.first())
            .copied()
            .collect();
        if let (Call::SetUp { cipher, key }, 17) = (&four[1].0, answers[1]) {
            assert!(four[0].0.number() == 1 && [2, 3].contains(&four[2].0.number()));
            assert_eq!(four[3].0.number(), 4);
            assert_eq!(answers, [0, 17, 5, 5]);
            found.insert(((*cipher as u8, key.len() as u8), key[0]));
        }
    }
    for kind in LEGAL {
        for byte in [0x00, 0xFF, 0x01, 0x7F, 0x80] {
            assert!(found.contains(&(kind, byte)), "{kind:?} {byte:02X}");
        }
    }
}

/// The place of the one byte that differs from all others, and in how many bits.
fn one_other(key: &[u8]) -> Option<(usize, u32)> {
    let usual = *key
        .iter()
        .find(|byte| key.iter().filter(|b| b == byte).count() > 1)?;
    let mut other = (0..key.len()).filter(|&place| key[place] != usual);
    let place = other.next()?;
    let alone = other.next().is_none();
    alone.then(|| (place, (key[place] ^ usual).count_ones()))
}

#[test]
fn keys_with_one_other_byte_in_every_place_are_taken() {
    let mut places: BTreeSet<(u8, (u8, u8), usize)> = BTreeSet::new();
    let mut bits: BTreeSet<((u8, u8), bool)> = BTreeSet::new();
    for keyed in keyed() {
        if let (Some(kind), Some((place, differing))) = (keyed.kind(), one_other(&keyed.key)) {
            assert!(keyed.call == 7 || keyed.back[0] == 0);
            if keyed.back[0] == 0 {
                places.insert((keyed.call, kind, place));
                bits.insert((kind, differing == 1));
            }
        }
    }
    for (cipher, length) in LEGAL {
        let kind = (cipher, length);
        let last = usize::from(length) - 1;
        assert!((0..=last).all(|place| places.contains(&(1, kind, place))));
        assert!([0, last].map(|place| places.contains(&(7, kind, place))) == [true; 2]);
        assert!(bits.contains(&(kind, true)) && bits.contains(&(kind, false)));
    }
}

/// The block call right behind a set-up works under the key.
#[test]
fn a_block_is_worked_under_keys_with_another_byte_at_either_end() {
    let mut found: BTreeSet<((u8, u8), usize)> = BTreeSet::new();
    for two in part().windows(2) {
        if let (Call::SetUp { cipher, key }, 2 | 3) = (&two[0].0, two[1].0.number()) {
            if let (Some((place, _)), 0) = (one_other(key), two[1].1[0]) {
                let kind = (*cipher as u8, key.len() as u8);
                found.insert((kind, place));
                let schedule = set_up(*cipher, key).schedule;
                assert_eq!(two[1].1[1..], block_under(&schedule, &two[1].0));
            }
        }
    }
    for kind in LEGAL {
        let last = usize::from(kind.1) - 1;
        assert!(found.contains(&(kind, 0)) && found.contains(&(kind, last)));
    }
    assert!(found.len() > 3 * LEGAL.len(), "{}", found.len());
}

fn block_under(schedule: &Schedule, call: &Call) -> [u8; 16] {
    match call {
        Call::Encipher { block, .. } => schedule.encipher(block[..].try_into().unwrap()),
        Call::Decipher { block, .. } => schedule.decipher(block[..].try_into().unwrap()),
        _ => panic!("call {:02X} works no block", call.number()),
    }
}

/// A name, and which keys it is for.
type Kind = (&'static str, fn(&[u8]) -> bool);

/// Keys that a short look takes for blank, or nearly.
const KINDS: [Kind; 7] = [
    ("two halves", |key| {
        let (first, second) = key.split_at(key.len() / 2);
        all_equal(first) && all_equal(second)
    }),
    ("alternating", |key| {
        key.windows(3).all(|three| three[0] == three[2])
    }),
    ("the first two equal", |key| {
        key[0] == key[1] && most(key) < 6
    }),
    ("the last two equal", |key| {
        key[key.len() - 2] == key[key.len() - 1] && most(key) < 6
    }),
    ("all but one", |key| most(key) == key.len() - 1),
    ("ascending", |key| {
        key.windows(2).all(|two| two[1] == two[0].wrapping_add(1))
    }),
    ("one word", |key| {
        key.windows(5).all(|five| five[0] == five[4]) && key[0] != key[2]
    }),
];

#[test]
fn keys_of_every_kind_are_taken_by_both_calls() {
    let mut found: BTreeSet<(&str, u8, (u8, u8))> = BTreeSet::new();
    for keyed in keyed() {
        if let (Some(kind), false) = (keyed.kind(), all_equal(&keyed.key)) {
            assert_ne!(keyed.back[0], 17);
            for (name, _) in KINDS.iter().filter(|(_, is)| is(&keyed.key)) {
                found.insert((name, keyed.call, kind));
            }
        }
    }
    for (name, _) in KINDS {
        for kind in LEGAL {
            assert!(found.contains(&(name, 1, kind)), "{name} {kind:?}");
            assert!(found.contains(&(name, 7, kind)), "{name} {kind:?}");
        }
    }
}

#[test]
fn blank_keys_of_illegal_lengths_and_for_unknown_ciphers_are_refused_before() {
    let blank = keyed().into_iter().filter(|keyed| all_equal(&keyed.key));
    let found: BTreeSet<(u8, u64, usize, u8)> = blank
        .map(|keyed| (keyed.call, keyed.cipher, keyed.key.len(), keyed.back[0]))
        .collect();
    for call in [1, 7] {
        for cipher in 1..=4 {
            let long: &[usize] = if cipher > 2 { &[24, 32] } else { &[] };
            for &length in [0, 1, 15, 17, 23, 25, 31, 33].iter().chain(long) {
                assert!(found.contains(&(call, cipher, length, 2)));
            }
        }
        for &cipher in ALL.illegal {
            assert!(found.contains(&(call, cipher, 16, 1)));
            assert!(found.contains(&(call, cipher, 15, 1)));
        }
    }
}

/// How many entries there are of each legal cipher and key length, and of all others, with
/// each set of broken rules.
type Sets = BTreeMap<(Option<(u8, u8)>, Vec<u8>), usize>;

/// Sets with 1 or 2 in them as often as there are legal ciphers and key lengths.
#[test]
fn every_set_of_broken_rules_stands_in_the_entries() {
    let mut found = Sets::new();
    for keyed in keyed().iter().filter(|keyed| keyed.call == 7) {
        let mut broken = ORDER.to_vec();
        broken.retain(|&refusal| keyed.has(refusal, all_equal));
        *found.entry((keyed.kind(), broken)).or_default() += 1;
    }
    let number = |kind, set: &[u8]| found.get(&(kind, set.to_vec())).copied().unwrap_or(0);
    for set in 0..64u8 {
        let rules = (0..6).filter(|rule| set >> rule & 1 == 1);
        let set: Vec<u8> = rules.map(|rule| ORDER[rule]).collect();
        match set.first() {
            Some(1 | 2) => assert!(number(None, &set) >= LEGAL.len(), "{set:?}"),
            _ => assert!(LEGAL.iter().all(|&kind| number(Some(kind), &set) > 0)),
        }
    }
}

/// The calls up to the next record, by number, with their answers.
#[test]
fn schedules_of_one_byte_are_good_and_a_byte_behind_makes_them_bad() {
    let mut good: BTreeSet<((u8, u8), u8)> = BTreeSet::new();
    let mut bad: BTreeSet<(u8, u8)> = BTreeSet::new();
    let part = part();
    for (place, (call, _)) in part.iter().enumerate() {
        if let Call::KeepSchedule(record) = call {
            let schedule = schedule_from(record);
            let kind = (schedule.cipher, schedule.key_length);
            let used = used(schedule.cipher, schedule.key_length);
            assert!(all_equal(&schedule.round_keys[..used]));
            let behind = part[place + 1..]
                .iter()
                .map(|(call, back)| (call.number(), back));
            let made = behind.take_while(|(number, _)| *number != 8);
            let made: Vec<(u8, u8)> = made.map(|(number, back)| (number, back[0])).collect();
            if schedule.is_bad() {
                assert!(made.iter().all(|&(_, answer)| answer == 5));
                assert_eq!(made.len(), 3);
                bad.insert(kind);
            } else {
                let calls = [2, 3, 4, 5, 5, 6, 0x0D, 0x0E, 0x0F];
                assert_eq!(made, calls.map(|call| (call, 0)));
                good.insert((kind, schedule.round_keys[0]));
            }
        }
    }
    assert_eq!(bad.len(), LEGAL.len() - 1, "there is no byte behind 288");
    assert!(LEGAL.iter().all(|&kind| good.contains(&(kind, 0x00))));
    assert!(LEGAL.iter().all(|&kind| good.contains(&(kind, 0xFF))));
    assert!([3, 4]
        .iter()
        .all(|&cipher| good.contains(&((cipher, 16), 0x80))));
}
