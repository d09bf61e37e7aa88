//! What stood in the replay files before request 7: every call stands there still, and what
//! it answered comes back once the change is taken back.
//! Follows document 02, request 7, and the page on replay.

mod digest;
mod made_calls;
mod old_parts;
mod script_calls;
mod taken_back;

use digest::digest;
use made_calls::made;
use old_parts::Before;
use second::replay::call::Call;
use second::replay::{run, script, Extent};
use taken_back::{record_behind, taken_back};

const BEFORE: Before = Before {
    files: [
        (1_925_450, 0x6D70_6826_3923_0AA2),
        (3_742_903, 0xF26C_F6B6_D927_3301),
    ],
    is_new: |_, back| back.first() == Some(&17),
};

/// A record that is kept behind a set-up takes so many bytes of the script.
const KEPT: usize = 291;

#[test]
fn all_that_stood_there_stands_in_front_of_the_blanks_part() {
    BEFORE.stands_in_front();
}

/// Today's script and answers in front of the blanks part.
fn today() -> [Vec<u8>; 2] {
    let mut script = script(Extent::Whole);
    script.truncate(BEFORE.files[0].0 + 24 * KEPT);
    let answers = run(&script);
    [script, answers]
}

/// Every call in front of the blanks part, with what is written for it today.
fn calls_of_today() -> Vec<(Call, Vec<u8>)> {
    let [script, answers] = today();
    made(&script, &answers)
}

#[test]
fn of_them_24_set_ups_and_8_entries_are_refused_now_with_17() {
    let refused = |number: u8| {
        let calls = calls_of_today().into_iter();
        let calls = calls.filter(|(call, back)| call.number() == number && back[0] == 17);
        calls.collect::<Vec<_>>()
    };
    let (set_ups, entries) = (refused(1), refused(7));
    assert_eq!((set_ups.len(), entries.len()), (24, 8));
    assert!(set_ups.iter().all(|(_, back)| back[1..] == [0; 290]));
    let blank = |key: &[u8]| key == vec![key[0]; key.len()];
    for (call, _) in [set_ups, entries].concat() {
        assert!(match call {
            Call::SetUp { key, .. } | Call::Entry { key, .. } => blank(&key),
            _ => false,
        });
    }
}

#[test]
fn behind_each_refused_set_up_stands_the_schedule_of_its_key() {
    let calls = calls_of_today();
    for two in calls.windows(2) {
        if let ((call @ Call::SetUp { .. }, back), (behind, _)) = (&two[0], &two[1]) {
            let record = record_behind(call);
            assert_eq!(record.is_some(), back[0] == 17);
            assert!(record.is_none() || record.as_ref() == Some(behind));
        }
    }
}

/// The block calls under the schedule record, which stand right before the entries.
#[test]
fn the_blocks_of_the_refused_entries_are_worked_by_the_block_calls() {
    let calls = calls_of_today();
    let mut found = 0;
    for six in calls.windows(6) {
        let numbers: Vec<u8> = six.iter().map(|(call, _)| call.number()).collect();
        if numbers == [1, 8, 2, 3, 7, 7] && six[4].1[0] == 17 {
            for (of_block, of_entry) in [(&six[2], &six[4]), (&six[3], &six[5])] {
                assert_eq!(block(&of_block.0), block(&of_entry.0));
                assert_eq!((of_block.1[0], of_entry.1[0]), (0, 17));
                found += 1;
            }
        }
    }
    assert_eq!(found, 8);
}

fn block(call: &Call) -> &[u8] {
    match call {
        Call::Encipher { block, .. } | Call::Decipher { block, .. } | Call::Entry { block, .. } => {
            block
        }
        _ => panic!("call {:02X} has no block", call.number()),
    }
}

/// Whether script and answers with the change taken back are those of before.
fn are_as_before(script: &[u8], answers: &[u8]) -> bool {
    let before = taken_back(script, answers, script.len());
    before.map(|part| (part.len(), digest(&part))) == BEFORE.files
}

/// The answer and the ends of what stands behind it.
#[test]
fn a_byte_that_differs_in_a_refused_call_is_seen() {
    let [script, answers] = today();
    assert!(are_as_before(&script, &answers));
    let mut place = 0;
    let mut seen = 0;
    for (_, back) in made(&script, &answers) {
        if back.first() == Some(&17) {
            for byte in [0, 1, back.len() - 1] {
                let mut changed = answers.clone();
                changed[place + byte] ^= 1;
                assert!(!are_as_before(&script, &changed));
            }
            seen += 1;
        }
        place += back.len();
    }
    assert_eq!(seen, 32);
}

#[test]
fn a_byte_that_differs_in_a_kept_record_is_seen() {
    let [script, answers] = today();
    let mut place = 0;
    let mut seen = 0;
    for (call, back) in made(&script, &answers) {
        place += call.bytes().len();
        if call.number() == 1 && back[0] == 17 {
            for byte in [0, 289] {
                let mut changed = script.clone();
                changed[place + 1 + byte] ^= 1;
                assert!(!are_as_before(&changed, &answers));
            }
            seen += 1;
        }
    }
    assert_eq!(seen, 24);
}
