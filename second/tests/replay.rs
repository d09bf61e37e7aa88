//! The replay: the committed files, the interpreter byte by byte, broken scripts,
//! and what the script of today covers.
//! Follows the page on replay.

mod script_calls;

use script_calls::calls;
use second::cipher::{encipher_block, set_up};
use second::noekeon::{DESIGNERS, EARLIER};
use second::replay::call::{Buffer, Call};
use second::replay::interpreter::Kept;
use second::replay::record::{schedule_bytes, seal_bytes, seal_from, stream_bytes};
use second::replay::record::{CLOSED, SEAL_CLOSED};
use second::replay::{run, script, Extent};
use second::seal;
use second::stream::{feed, start};
use std::collections::{BTreeMap, BTreeSet};

fn committed(name: &str) -> Vec<u8> {
    let path = format!("{}/replay/{name}", env!("CARGO_MANIFEST_DIR"));
    std::fs::read(path).unwrap()
}

#[test]
fn the_committed_files_are_what_is_written_today() {
    let script = script(Extent::Whole);
    assert!(committed("script") == script, "the script differs");
    assert!(committed("answers") == run(&script), "the answers differ");
    assert!(script.len() < 2_120_000 && run(&script).len() < 3_980_000);
}

#[test]
fn the_blocks_part_is_a_prefix_of_both_files() {
    let blocks = script(Extent::Blocks);
    let whole = script(Extent::Whole);
    assert!(blocks.len() < whole.len());
    assert!(whole.starts_with(&blocks));
    assert!(run(&whole).starts_with(&run(&blocks)));
}

#[test]
fn calls_read_back_are_the_calls_written() {
    let script = script(Extent::Whole);
    let written: Vec<u8> = calls(&script).iter().flat_map(Call::bytes).collect();
    assert!(written == script);
}

#[test]
fn the_parts_hold_the_calls_they_are_for() {
    let numbers =
        |script: &[u8]| -> BTreeSet<u8> { calls(script).iter().map(Call::number).collect() };
    let blocks = script(Extent::Blocks);
    assert_eq!(numbers(&blocks), BTreeSet::from([1, 2, 3, 7, 8]));
    let whole = script(Extent::Whole);
    assert_eq!(numbers(&whole), BTreeSet::from_iter(1..=0x14));
}

/// The calls of the base, of request 2 and of request 3; what stands behind is of later
/// ones.
struct Parts {
    base: Vec<Call>,
    request_2: Vec<Call>,
    request_3: Vec<Call>,
}

/// No other call stands within the cards part; the seals part begins with a call on seals,
/// the records part with one on records.
fn parts() -> Parts {
    let mut base = calls(&script(Extent::Whole));
    let of_cards = |call: &Call| (0x0A..=0x0C).contains(&call.number());
    let of_seals = |call: &Call| call.number() > 0x0C;
    let of_records = |call: &Call| call.number() > 0x11;
    let first = |calls: &[Call], of: fn(&Call) -> bool| calls.iter().position(of).unwrap();
    let later = base.split_off(first(&base, of_records));
    let request_3 = base.split_off(first(&base, of_seals));
    let mut cards = base.split_off(first(&base, of_cards));
    let length = cards.iter().take_while(|call| of_cards(call)).count();
    let request_2 = cards.split_off(length);
    let mut behind = request_2.iter().chain(&request_3).chain(&later);
    assert!(!behind.any(of_cards));
    Parts {
        base,
        request_2,
        request_3,
    }
}

/// The cipher number that a call hands in.
fn handed_in(call: &Call) -> Option<u64> {
    match call {
        Call::SetUp { cipher, .. } | Call::Entry { cipher, .. } => Some(*cipher),
        Call::KeepSchedule(record) => Some(record[0].into()),
        Call::KeepStream(record) => Some(record[0].into()),
        Call::KeepSeal(record) => Some(record[0].into()),
        _ => None,
    }
}

#[test]
fn number_3_is_handed_in_behind_the_cards_part_alone_and_there_by_every_call() {
    let Parts {
        base: before,
        request_2: behind,
        ..
    } = parts();
    let handing_in = |calls: &[Call], number| -> BTreeSet<u8> {
        let calls = calls.iter().filter(|call| handed_in(call) == Some(number));
        calls.map(Call::number).collect()
    };
    let every = BTreeSet::from([1, 7, 8, 9]);
    assert_eq!(handing_in(&before, 3), BTreeSet::new());
    assert_eq!(handing_in(&before, 4), every);
    assert_eq!(handing_in(&behind, 3), every);
    assert_eq!(handing_in(&behind, 4), every);
}

/// Number, key length and answer of the set-ups (1) or of the entries (7) of a list.
fn keys_and_answers(calls: Vec<Call>, number: u8) -> BTreeSet<(u64, usize, u8)> {
    let mut kept = Kept::ZERO;
    let mut found = BTreeSet::new();
    for call in calls.into_iter().filter(|call| call.number() == number) {
        if let Call::SetUp { cipher, key } | Call::Entry { cipher, key, .. } = &call {
            let (cipher, length) = (*cipher, key.len());
            found.insert((cipher, length, kept.make(call)[0]));
        }
    }
    found
}

#[test]
fn request_2_has_its_refusals_1_and_2_in_the_script() {
    let behind = parts().request_2;
    for number in [1, 7] {
        let found = keys_and_answers(behind.clone(), number);
        for cipher in [0, 5, 259, 260, (1 << 32) + 3, (1 << 63) + 4, u64::MAX] {
            assert!(found.contains(&(cipher, 16, 1)), "{cipher}");
        }
        for cipher in [3, 4] {
            assert!(found.contains(&(cipher, 16, 0)));
            for length in [0, 15, 17, 24, 32] {
                assert!(found.contains(&(cipher, length, 2)), "{cipher} {length}");
            }
        }
    }
}

fn marked_behind_16(record: &[u8]) -> bool {
    record[1] == 16 && record[18..290].iter().any(|&byte| byte != 0)
}

#[test]
fn request_2_has_round_keys_behind_16_in_the_script_and_refuses_them() {
    let behind = parts().request_2;
    let mut found = BTreeSet::new();
    for two in behind.windows(2) {
        let record = match &two[0] {
            Call::KeepSchedule(record) => &record[..],
            Call::KeepStream(record) => &record[..],
            _ => continue,
        };
        if marked_behind_16(record) {
            let mut kept = Kept::ZERO;
            kept.make(two[0].clone());
            found.insert((record[0], kept.make(two[1].clone())[0]));
        }
    }
    assert_eq!(found, BTreeSet::from([(3, 5), (3, 6), (4, 5), (4, 6)]));
}

/// Entries that are alike but for their number, with what came back.
#[test]
fn the_same_bytes_under_3_and_4_are_in_the_script_and_give_other_blocks() {
    let behind = parts().request_2;
    let mut kept = Kept::ZERO;
    let mut blocks: BTreeMap<Vec<u8>, BTreeMap<u64, Vec<u8>>> = BTreeMap::new();
    for call in behind {
        if let Call::Entry { cipher, .. } = call {
            let rest = call.bytes()[9..].to_vec();
            let back = kept.make(call);
            if back[0] == 0 {
                blocks.entry(rest).or_default().insert(cipher, back);
            }
        }
    }
    let pairs: Vec<_> = blocks.values().filter(|under| under.len() == 2).collect();
    assert!(pairs.len() >= 8);
    assert!(pairs.iter().all(|under| under[&3] != under[&4]));
}

#[test]
fn every_answer_of_every_call_occurs() {
    let mut kept = Kept::ZERO;
    let mut answers: BTreeMap<u8, BTreeSet<u8>> = BTreeMap::new();
    for call in calls(&script(Extent::Whole)) {
        let number = call.number();
        if let Some(&answer) = kept.make(call).first() {
            answers.entry(number).or_default().insert(answer);
        }
    }
    let expected = BTreeMap::from([
        (1, BTreeSet::from([0, 1, 2, 17])),
        (2, BTreeSet::from([0, 5, 9, 11])),
        (3, BTreeSet::from([0, 5, 9, 11])),
        (4, BTreeSet::from([0, 3, 4, 5])),
        (5, BTreeSet::from([0, 6, 7, 8, 9])),
        (6, BTreeSet::from([0, 6, 7, 10])),
        (7, BTreeSet::from([0, 1, 2, 4, 9, 11, 17])),
        (0x0A, BTreeSet::from([0, 1])),
        (0x0B, BTreeSet::from([0])),
        (0x0C, BTreeSet::from([0, 12, 13, 14])),
        (0x0D, BTreeSet::from([0, 5])),
        (0x0E, BTreeSet::from([0, 6, 7, 8])),
        (0x0F, BTreeSet::from([0, 6, 7, 9])),
        (0x10, BTreeSet::from([0, 6, 7])),
        (0x12, BTreeSet::from([0, 6, 9])),
        (0x13, BTreeSet::from([0, 5, 15, 16])),
        (0x14, BTreeSet::from([0, 9, 12])),
    ]);
    assert_eq!(answers, expected);
}

/// The first byte of a find is of its length, so both lengths are looked for here.
#[test]
fn finds_with_and_without_a_slot_occur() {
    let calls = calls(&script(Extent::Whole)).into_iter();
    let finds = calls.filter(|call| call.number() == 0x0B);
    let mut kept = Kept::ZERO;
    let lengths: BTreeSet<usize> = finds.map(|call| kept.make(call).len()).collect();
    assert_eq!(lengths, BTreeSet::from([4, 20]));
}

/// The calls of request 3 on seals, each with the state before it and what is written.
fn seal_calls() -> Vec<(Call, seal::Seal, Vec<u8>)> {
    let mut kept = Kept::ZERO;
    let mut state = seal::Seal::ZERO;
    let mut made = Vec::new();
    for call in parts().request_3 {
        let back = kept.make(call.clone());
        let before = state.clone();
        match &call {
            Call::KeepSeal(record) => state = seal_from(record),
            call if call.number() > 0x0C => {
                let record = back[back.len() - 331..].try_into().unwrap();
                state = seal_from(&record);
                made.push((call.clone(), before, back));
            }
            _ => {}
        }
    }
    made
}

#[test]
fn checks_that_say_yes_and_checks_that_say_no_occur() {
    let calls = seal_calls().into_iter();
    let checks = calls.filter(|(call, ..)| call.number() == 0x10);
    let said: BTreeSet<(u8, u8)> = checks.map(|(_, _, back)| (back[0], back[1])).collect();
    assert_eq!(said, BTreeSet::from([(0, 0), (0, 1), (6, 0), (7, 0)]));
}

/// Complete and padded ends for every cipher and key length, and for each two bits that L
/// can begin with.
#[test]
fn seals_of_every_kind_are_written() {
    let mut ends: BTreeMap<(u8, u8), BTreeSet<usize>> = BTreeMap::new();
    let mut doublings: BTreeSet<(u8, u8, bool)> = BTreeSet::new();
    for (call, state, back) in seal_calls() {
        if call.number() == 0x0F && back[0] == 0 {
            let schedule = &state.schedule;
            let bits = schedule.encipher([0; 16])[0] >> 6;
            let complete = state.held_number() == 16;
            doublings.insert((schedule.cipher, bits, complete));
            let cipher = (schedule.cipher, schedule.key_length);
            ends.entry(cipher).or_default().insert(state.held_number());
        }
    }
    assert_eq!(doublings.len(), 4 * 4 * 2);
    assert_eq!(ends.len(), 8);
    assert!(ends.values().all(|held| held.contains(&0)));
    assert!(ends.values().all(|held| held.contains(&15)));
    assert!(ends.values().all(|held| held.contains(&16)));
    let all: BTreeSet<usize> = ends.into_values().flatten().collect();
    assert_eq!(all, BTreeSet::from_iter(0..=16));
}

/// Each length up to 50 as one piece of a fresh seal.
#[test]
fn messages_of_0_to_50_bytes_are_sealed() {
    let calls = seal_calls();
    let lengths: BTreeSet<u64> = calls
        .windows(3)
        .filter(|three| three[0].0.number() == 0x0D && three[2].0.number() == 0x0F)
        .map(|three| three[2].1.count)
        .collect();
    assert!((0..=50).all(|length| lengths.contains(&length)));
}

/// The causes of a bad state, one bit each; a refused call shows which it had.
fn causes(state: &seal::Seal) -> u8 {
    let unused = &state.held[state.held_number()..];
    let causes = [
        state.schedule.is_bad(),
        state.count > seal::Seal::LIMIT,
        unused.iter().any(|&byte| byte != 0),
        state.count <= 16 && state.chain != [0; 16],
    ];
    (0..).zip(causes).map(|(i, c)| u8::from(c) << i).sum()
}

#[test]
fn each_cause_of_a_bad_state_stands_alone_before_each_call_open_and_closed() {
    let mut found: BTreeSet<(u8, u8, bool)> = BTreeSet::new();
    for (call, state, back) in seal_calls() {
        let bad = causes(&state) != 0;
        assert_eq!(back[0] == 6, bad && call.number() != 0x0D);
        if bad {
            found.insert((call.number(), causes(&state), state.closed));
        }
    }
    for call in 0x0D..=0x10 {
        for cause in [1, 2, 4, 8] {
            assert!(found.contains(&(call, cause, false)), "{call} {cause}");
            assert!(found.contains(&(call, cause, true)), "{call} {cause}");
        }
    }
}

/// Over the limit while closed or bad, and without room while closed or bad.
#[test]
fn every_order_of_refusals_of_a_seal_occurs() {
    let mut found: BTreeSet<(u8, bool, bool, bool, u8)> = BTreeSet::new();
    for (call, state, back) in seal_calls() {
        let third = match &call {
            Call::PieceOfSeal { piece } => {
                u128::from(state.count) + piece.len() as u128 > 1_048_576
            }
            Call::WriteSeal { buffer } => buffer.room < 16,
            Call::CheckSeal { given } => given.len() != 16,
            _ => continue,
        };
        let bad = causes(&state) != 0;
        found.insert((call.number(), bad, state.closed, third, back[0]));
    }
    let mut expected = BTreeSet::new();
    for (call, last) in [(0x0E, 8), (0x0F, 9), (0x10, 0)] {
        for closed in [false, true] {
            for third in [false, true] {
                let second = if third { last } else { 0 };
                expected.insert((call, true, closed, third, 6));
                expected.insert((call, false, closed, third, if closed { 7 } else { second }));
            }
        }
    }
    assert_eq!(found, expected);
}

fn hex(text: &str) -> Vec<u8> {
    let digits: String = text.split_whitespace().collect();
    (0..digits.len() / 2)
        .map(|i| u8::from_str_radix(&digits[2 * i..2 * i + 2], 16).unwrap())
        .collect()
}

const KEY: &str = "000102030405060708090A0B0C0D0E0F";
const BLOCK: &str = "F0E0D0C0B0A090807060504030201000";

fn set_up_call() -> Vec<u8> {
    hex(&format!("01 0000000000000003 00000010 {KEY}"))
}

#[test]
fn set_up_and_one_block_byte_by_byte() {
    let script = [
        set_up_call(),
        hex(&format!("02 00000010 {BLOCK} 00000012 5A")),
        hex("03 00000001 77 00000002 5A"),
    ];
    let schedule = set_up(3, &hex(KEY)).schedule;
    let block = encipher_block(&schedule, &hex(BLOCK), &[0x5A; 18]).out;
    let expected = [
        &[0][..],
        &schedule_bytes(&schedule),
        &[0],
        &block,
        &[11, 0x5A, 0x5A],
    ];
    assert_eq!(run(&script.concat()), expected.concat());
    assert_eq!(block[16..], [0x5A, 0x5A]);
}

#[test]
fn a_stream_byte_by_byte() {
    let script = [
        set_up_call(),
        hex(&format!("04 0000000000000001 00000010 {BLOCK}")),
        hex("05 00000003 AABBCC 00000001 66"),
        hex("06"),
    ];
    let schedule = set_up(3, &hex(KEY)).schedule;
    let started = start(&schedule, 1, &hex(BLOCK)).stream;
    let fed = feed(&started, &[0xAA, 0xBB, 0xCC], &[0x66]).stream;
    let expected = [
        &[0][..],
        &schedule_bytes(&schedule),
        &[0],
        &stream_bytes(&started),
        &[0],
        &[0; 8],
        &[0x66],
        &stream_bytes(&fed),
        &[10],
        &stream_bytes(&fed),
    ];
    assert_eq!(run(&script.concat()), expected.concat());
}

/// The 331 bytes of a stream: schedule, direction, count, chain, held, closed.
#[test]
fn the_records_lie_as_the_page_says() {
    let schedule = set_up(3, &hex(KEY)).schedule;
    let stream = start(&schedule, 2, &hex(BLOCK)).stream;
    let bytes = stream_bytes(&feed(&stream, &[0x99; 3], &[]).stream);
    let expected = [
        hex("03 10"),
        hex(KEY),
        vec![0; 272],
        hex("02 0000000000000003"),
        hex(BLOCK),
        hex("999999"),
        vec![0; 12],
        vec![0],
    ];
    assert_eq!(bytes[..], expected.concat());
    assert_eq!(CLOSED, 330);
}

#[test]
fn a_seal_byte_by_byte() {
    let schedule = set_up(3, &hex(KEY)).schedule;
    let started = seal::start(&schedule).seal;
    let fed = seal::feed(&started, &[0xAA, 0xBB, 0xCC]).seal;
    let sealed = fed.sealed();
    let script = [
        set_up_call(),
        hex("0D 0E 00000003 AABBCC 0F 0000000F 66 0F 00000012 66 10 00000000"),
        [&[0x11][..], &seal_bytes(&fed)].concat(),
        [&hex("10 00000010")[..], &sealed].concat(),
    ];
    let closed = seal::write(&fed, &[0; 16]).seal;
    let expected = [
        &[0][..],
        &schedule_bytes(&schedule),
        &[0],
        &seal_bytes(&started),
        &[0],
        &seal_bytes(&fed),
        &[9],
        &[0x66; 15],
        &seal_bytes(&fed),
        &[0],
        &sealed,
        &[0x66; 2],
        &seal_bytes(&closed),
        &[7, 0],
        &seal_bytes(&closed),
        &[0, 1],
        &seal_bytes(&closed),
    ];
    assert_eq!(run(&script.concat()), expected.concat());
}

/// The 331 bytes of a seal state: schedule, count, chain, held, closed.
#[test]
fn a_seal_state_lies_as_the_page_says() {
    let schedule = set_up(3, &hex(KEY)).schedule;
    let chain = schedule.encipher(hex(BLOCK).try_into().unwrap());
    let message = [hex(BLOCK), vec![0x99; 3]].concat();
    let seal = seal::feed(&seal::start(&schedule).seal, &message).seal;
    let bytes = seal_bytes(&seal::check(&seal, &[]).seal);
    let expected = [
        hex("03 10"),
        hex(KEY),
        vec![0; 272],
        hex("0000000000000013"),
        chain.to_vec(),
        hex("999999"),
        vec![0; 13],
        vec![1],
    ];
    assert_eq!(bytes[..], expected.concat());
    assert_eq!(seal_bytes(&seal_from(&bytes)), bytes);
    assert_eq!(SEAL_CLOSED, 330);
}

#[test]
fn the_seal_state_is_all_zero_at_the_beginning() {
    let script = "0E 00000000 0F 00000002 77 10 00000001 00 0D";
    let zero = &[0; 331][..];
    let expected = [
        &[6][..],
        zero,
        &[6, 0x77, 0x77],
        zero,
        &[6, 0],
        zero,
        &[5],
        zero,
    ];
    assert_eq!(run(&hex(script)), expected.concat());
}

#[test]
fn a_closed_byte_over_1_of_a_seal_counts_as_1() {
    let schedule = set_up(3, &hex(KEY)).schedule;
    for closed in [1, 2, 0x80, 0xFF] {
        let mut bytes = seal_bytes(&seal::start(&schedule).seal);
        bytes[SEAL_CLOSED] = closed;
        let answers = run(&[&[0x11][..], &bytes, &hex("0E 00000000")].concat());
        bytes[SEAL_CLOSED] = 1;
        assert_eq!(answers, [&[7][..], &bytes].concat());
    }
}

/// The calls on seals between those on the schedule and the stream, and the other way.
#[test]
fn seal_and_stream_leave_each_other() {
    let of_stream = [
        hex(&format!("04 0000000000000001 00000010 {BLOCK}")),
        hex("05 00000003 AABBCC 00000000 00"),
        hex("06"),
    ];
    let of_seal = [hex("0D"), hex("0E 00000003 AABBCC"), hex("0F 00000010 00")];
    let alone = |calls: &[Vec<u8>]| run(&[set_up_call(), calls.concat()].concat());
    let mut both = vec![set_up_call()];
    for (stream, seal) in of_stream.iter().zip(&of_seal) {
        both.extend([stream.clone(), seal.clone()]);
    }
    let answers = run(&both.concat());
    let (streams, seals) = (alone(&of_stream), alone(&of_seal));
    let expected = [
        &streams[..291 + 332],
        &seals[291..291 + 332],
        &streams[291 + 332..291 + 332 + 340],
        &seals[291 + 332..291 + 664],
        &streams[291 + 332 + 340..],
        &seals[291 + 664..],
    ];
    assert_eq!(answers, expected.concat());
}

#[test]
fn the_entry_byte_by_byte() {
    let script = format!(
        "07 0000000000000003 0000000000000002 00000010 {KEY} 00000010 {BLOCK} 00000010 00
         07 0000000000000103 0000000000000002 00000010 {KEY} 00000010 {BLOCK} 00000001 44
         07 0000000000000104 0000000000000002 00000010 {KEY} 00000010 {BLOCK} 00000001 55"
    );
    let schedule = set_up(3, &hex(KEY)).schedule;
    let block = schedule.decipher(hex(BLOCK).try_into().unwrap());
    let expected = [&[0][..], &block, &[1, 0x44], &[1, 0x55]];
    assert_eq!(run(&hex(&script)), expected.concat());
}

const SLOT: &str = "000101022EE00258001E000000000000";
const EMPTY: &str = "00000000000000000000000000000000";

#[test]
fn is_good_byte_by_byte() {
    let script = format!("0A 00000010 {SLOT} 0A 00000001 00 0A 00000000");
    assert_eq!(run(&hex(&script)), [1, 0, 1]);
}

#[test]
fn find_byte_by_byte() {
    let script = format!(
        "0B 00000020 {EMPTY} {SLOT} 0000000000000001 0000000000000001
         0B 00000020 {EMPTY} {SLOT} 0000000000000000 0000000000000000
         0B 00000010 {SLOT} 0000000000010001 0000000000000001
         0B 00000020 {SLOT} {SLOT} 0000000000000001 0000000000000001
         0B 00000000 0000000000000001 0000000000000001"
    );
    let expected = hex(&format!(
        "00000010 {SLOT} 00000000 00000000 00000000 00000000"
    ));
    assert_eq!(run(&hex(&script)), expected);
}

#[test]
fn put_byte_by_byte() {
    let script = format!(
        "0C 00000020 {EMPTY} {EMPTY} 00000010 {SLOT}
         0C 00000003 AABBCC 00000010 {SLOT}
         0C 00000010 {SLOT} 00000000
         0C 00000000 00000010 {SLOT}"
    );
    let expected = hex(&format!("00 {SLOT} {EMPTY} 0C AABBCC 0D {SLOT} 0E"));
    assert_eq!(run(&hex(&script)), expected);
}

#[test]
fn a_card_of_4112_bytes_can_be_said() {
    let card = vec![0; 4112];
    let record = hex(SLOT);
    let calls = [
        Call::IsGood { card: card.clone() },
        Call::Put {
            card: card.clone(),
            record,
        },
    ];
    let script: Vec<u8> = calls.iter().flat_map(Call::bytes).collect();
    assert_eq!(run(&script), [&[0, 12][..], &card].concat());
}

#[test]
fn calls_on_cards_leave_what_is_kept() {
    let of_cards = format!("0A 00000000 0B 00000000 {EMPTY} 0C 00000010 {EMPTY} 00000010 {SLOT}");
    let block = hex(&format!("02 00000010 {BLOCK} 00000010 00"));
    let without = run(&[set_up_call(), block.clone()].concat());
    let with = run(&[set_up_call(), hex(&of_cards), block].concat());
    let between = hex(&format!("01 00000000 00 {SLOT}"));
    let expected = [&without[..291], &between, &without[291..]].concat();
    assert_eq!(with, expected);
}

#[test]
fn refused_records_are_kept_too() {
    let script = [
        set_up_call(),
        hex("01 0000000000000005 00000000"),
        hex(&format!("02 00000010 {BLOCK} 00000000 00")),
        hex("06"),
    ];
    let answers = run(&script.concat());
    let refused = [&[1][..], &[0; 290], &[5], &[6], &[0; 331]];
    assert_eq!(answers[291..], refused.concat());
}

/// The same record but for its first byte.
#[test]
fn a_kept_schedule_is_read_by_its_number() {
    let schedule = hex(&format!("10 {KEY}"));
    let block = format!("02 00000010 {BLOCK} 00000010 00 03 00000010 {BLOCK} 00000010 00");
    let (key, text) = (hex(KEY).try_into().unwrap(), hex(BLOCK).try_into().unwrap());
    for (number, rule) in [(3, DESIGNERS), (4, EARLIER)] {
        let script = [&[8, number][..], &schedule, &[0; 272], &hex(&block)];
        let out = [rule.encipher(key, text), rule.decipher(key, text)];
        let expected = [&[0][..], &out[0], &[0], &out[1]];
        assert_eq!(run(&script.concat()), expected.concat());
    }
}

#[test]
fn a_closed_byte_over_1_counts_as_1() {
    for closed in [1, 2, 0x80, 0xFF] {
        let schedule = set_up(3, &hex(KEY)).schedule;
        let mut bytes = stream_bytes(&start(&schedule, 1, &hex(BLOCK)).stream);
        bytes[CLOSED] = closed;
        let answers = run(&[&[9][..], &bytes, &[6]].concat());
        bytes[CLOSED] = 1;
        assert_eq!(answers, [&[7][..], &bytes].concat());
    }
}

#[test]
fn an_empty_script_has_no_answers() {
    assert_eq!(run(&[]), []);
}

#[test]
fn an_unknown_call_ends_with_ff() {
    for number in [0, 0x15, 0x16, 0x7F, 0xFF] {
        let script = [set_up_call(), vec![number], set_up_call()].concat();
        let answers = run(&script);
        assert_eq!(answers.len(), 292);
        assert_eq!(answers[291], 0xFF);
    }
}

#[test]
fn a_length_over_8192_ends_with_ff() {
    let at_the_limit = Call::Encipher {
        block: vec![0; 8192],
        buffer: Buffer {
            room: 8192,
            filler: 1,
        },
    };
    let answers = run(&at_the_limit.bytes());
    assert_eq!(answers, [vec![5], vec![1; 8192]].concat());
    let long_string = [hex("02 00002001"), vec![0; 8193], hex("00000010 00")].concat();
    assert_eq!(run(&long_string), [0xFF]);
    let long_buffer = hex(&format!("02 00000010 {BLOCK} 00002001 00 06"));
    assert_eq!(run(&long_buffer), [0xFF]);
    let longest = hex("05 FFFFFFFF");
    assert_eq!(run(&longest), [0xFF]);
    for (before, behind) in [
        ("0A", ""),
        ("0B", EMPTY),
        ("0C", "00000000"),
        ("0C 00000000", ""),
        ("0E", ""),
        ("10", ""),
        ("13", ""),
        ("14", "00000000 00000000 00"),
        ("14 00000000", "00000000 00"),
    ] {
        let with = |length: usize| {
            let string = [hex(&format!("{length:08X}")), vec![0; length]];
            [hex(before), string.concat(), hex(behind)].concat()
        };
        assert_ne!(run(&with(8192)).last(), Some(&0xFF));
        assert_eq!(run(&with(8193)), [0xFF]);
    }
}

#[test]
fn a_buffer_over_8192_ends_with_ff() {
    for (before, beside) in [("0F", 331), ("12", 0), ("14 00000000 00000000", 8)] {
        let with = |length: &str| run(&hex(&format!("{before} {length} 01")));
        assert_eq!(with("00002000").len(), 1 + 8192 + beside);
        assert_eq!(with("00002001"), [0xFF]);
    }
}

#[test]
fn a_script_cut_anywhere_within_a_call_ends_with_ff() {
    let stream = [vec![9], vec![0; 331]].concat();
    let schedule = [vec![8], vec![0; 290]].concat();
    let calls = [
        set_up_call(),
        hex(&format!("02 00000010 {BLOCK} 00000010 00")),
        hex(&format!("03 00000010 {BLOCK} 00000010 00")),
        hex(&format!("04 0000000000000001 00000010 {BLOCK}")),
        hex(&format!("05 00000010 {BLOCK} 00000010 00")),
        hex(&format!(
            "07 0000000000000003 0000000000000002 00000010 {KEY} 00000010 {BLOCK} 00000010 00"
        )),
        schedule,
        stream,
        hex(&format!("0A 00000010 {SLOT}")),
        hex(&format!(
            "0B 00000010 {SLOT} 0000000000000001 0000000000000001"
        )),
        hex(&format!("0C 00000010 {EMPTY} 00000010 {SLOT}")),
        hex(&format!("0E 00000010 {BLOCK}")),
        hex("0F 00000010 00"),
        hex(&format!("10 00000010 {BLOCK}")),
        [vec![0x11], vec![0; 331]].concat(),
        hex("12 00000028 00"),
        hex(&format!("13 00000010 {BLOCK}")),
        hex(&format!("14 00000010 {SLOT} 00000010 {EMPTY} 00000004 00")),
    ];
    for call in calls {
        assert_ne!(run(&call), [0xFF]);
        for length in 1..call.len() {
            assert_eq!(run(&call[..length]), [0xFF]);
            let behind = [hex("06"), call[..length].to_vec()].concat();
            let answers = run(&behind);
            assert_eq!((answers.len(), answers[332]), (333, 0xFF));
        }
    }
}
