//! Power cuts across a process's end: the program's own `run` passes, and programs that
//! are wrong don't.
//! Follows document 02, request 5, its last sentence, and the page on replay.

mod script_calls;

use script_calls::calls;
use second::cuts::{cuts, CUTS};
use second::reading::RECORD_BYTES;
use second::replay::call::Call;
use second::replay::run;
use std::collections::BTreeSet;
use std::process::{Command, Output};

const SECOND: &str = env!("CARGO_BIN_EXE_second");

fn second_cuts(words: &[&str]) -> Output {
    let mut command = Command::new(SECOND);
    command.arg("cuts").args(words).output().unwrap()
}

/// The scripts of all runs against the right program.
fn scripts() -> Vec<Vec<u8>> {
    let mut scripts = Vec::new();
    let line = cuts(&mut |script| {
        scripts.push(script.to_vec());
        Ok(run(script))
    });
    assert!(line.is_ok());
    scripts
}

#[test]
fn its_own_run_passes() {
    let output = second_cuts(&[SECOND, "run"]);
    assert!(output.status.success() && output.stderr.is_empty());
    let line = cuts(&mut |script| Ok(run(script))).unwrap();
    assert_eq!(output.stdout, line.as_bytes());
    let (number, rest) = line.split_once(' ').unwrap();
    assert!(number.parse::<usize>().unwrap() >= CUTS);
    assert!(rest.starts_with("cuts across a process's end, in "));
    assert!(rest.ends_with(" messages: the joined bytes are those of the CBC\n"));
    assert_eq!(line.matches('\n').count(), 1);
}

#[track_caller]
fn fails_with_one_sentence(words: &[&str]) {
    let output = second_cuts(words);
    assert_eq!(output.status.code(), Some(1));
    assert!(output.stdout.is_empty());
    let sentence = String::from_utf8(output.stderr).unwrap();
    assert!(sentence.ends_with(".\n") && sentence.matches('\n').count() == 1);
}

#[test]
fn programs_that_are_no_interpreter_fail() {
    fails_with_one_sentence(&["cat"]);
    fails_with_one_sentence(&["true"]);
    fails_with_one_sentence(&["false"]);
    fails_with_one_sentence(&["there/is/no/such/program"]);
    fails_with_one_sentence(&[SECOND, "edges", "cards"]);
}

/// The answers pass through another program that changes a byte for another.
#[test]
fn a_program_behind_which_a_bit_is_flipped_fails() {
    for change in [r"'\001' '\000'", r"'\125' '\124'"] {
        let words = format!("\"$0\" run | tr {change}");
        fails_with_one_sentence(&["sh", "-c", &words, SECOND]);
    }
}

/// In one run alone, in what its last call shows: a record, or the state at the end.
#[test]
fn a_bit_flipped_at_the_end_of_one_run_fails() {
    let runs = scripts().len();
    for number in (0..runs).step_by(23) {
        for from_the_end in [1, 16, 17, 40] {
            let mut at = 0;
            let outcome = cuts(&mut |script| {
                let mut answers = run(script);
                if at == number {
                    let place = answers.len() - from_the_end;
                    answers[place] ^= 1;
                }
                at += 1;
                Ok(answers)
            });
            assert!(outcome.is_err(), "run {number}, {from_the_end}");
        }
    }
}

/// A program that makes other calls than it is told to.
#[track_caller]
fn fails(wrong: impl Fn(Call) -> Call) {
    let outcome = cuts(&mut |script| {
        let calls = calls(script).into_iter().map(&wrong);
        let script: Vec<u8> = calls.flat_map(|call| call.bytes()).collect();
        Ok(run(&script))
    });
    assert!(outcome.is_err());
}

fn with_record(call: Call, change: impl Fn(&mut [u8])) -> Call {
    match call {
        Call::TakeUp { mut record } => {
            change(&mut record);
            Call::TakeUp { record }
        }
        other => other,
    }
}

#[test]
fn a_program_that_changes_nothing_passes_as_a_wrong_one() {
    let outcome = cuts(&mut |script| {
        let calls = calls(script).into_iter();
        let calls = calls.map(|call| with_record(call, |_| {}));
        let script: Vec<u8> = calls.flat_map(|call| call.bytes()).collect();
        Ok(run(&script))
    });
    assert!(outcome.is_ok());
}

#[test]
fn a_program_that_forgets_the_held_bytes_fails() {
    fails(|call| with_record(call, |record| record[24..].fill(0)));
}

#[test]
fn a_program_that_forgets_the_last_held_byte_of_fifteen_fails() {
    fails(|call| with_record(call, |record| record[38] = 0));
}

#[test]
fn a_program_that_forgets_the_chain_or_turns_it_round_fails() {
    fails(|call| with_record(call, |record| record[8..24].fill(0)));
    fails(|call| with_record(call, |record| record[8..24].reverse()));
}

#[test]
fn a_program_that_forgets_the_direction_fails() {
    fails(|call| with_record(call, |record| record[2] = 1));
    fails(|call| with_record(call, |record| record[2] = 2));
}

/// The number held stays, so only the count in the state at the end shows it.
#[test]
fn a_program_that_counts_from_the_cut_fails() {
    fails(|call| {
        with_record(call, |record| {
            record[4..7].fill(0);
            record[7] %= 16;
        })
    });
}

/// Only the state at the end shows it.
#[test]
fn a_program_that_finishes_nothing_fails() {
    fails(|call| match call {
        Call::Finish => Call::Piece {
            piece: Vec::new(),
            buffer: second::replay::script::room(0, 0),
        },
        other => other,
    });
}

/// A program whose output is cut off or goes on too long.
#[test]
fn a_program_that_writes_less_or_more_fails() {
    for more in [false, true] {
        let outcome = cuts(&mut |script| {
            let mut answers = run(script);
            match more {
                true => answers.push(0),
                false => drop(answers.pop()),
            }
            Ok(answers)
        });
        assert!(outcome.is_err());
    }
}

/// Every cipher, key length and direction, every number held at a cut, long messages, and
/// messages that are cut more than once.
#[test]
fn the_cuts_are_over_messages_of_every_kind() {
    let mut kinds: BTreeSet<[u8; 3]> = BTreeSet::new();
    let mut held: BTreeSet<u8> = BTreeSet::new();
    let mut places = Vec::new();
    let mut again = 0;
    for script in scripts() {
        let calls = calls(&script);
        if let Call::TakeUp { record } = &calls[1] {
            kinds.insert([record[0], record[1], record[2]]);
            held.insert(record[7] % 16);
            places.push(u16::from_be_bytes([record[6], record[7]]));
            again += usize::from(calls.last().unwrap().number() == 0x12);
        }
    }
    assert_eq!((kinds.len(), held.len()), (16, 16));
    assert!(places.len() >= CUTS && again > 100);
    assert!(places.contains(&0) && places.iter().any(|&place| place > 500));
}

/// Pieces refused for want of room, and rooms for the record of 40 bytes and more.
#[test]
fn pieces_are_refused_and_tried_again() {
    let mut refused = 0;
    let mut rooms = BTreeSet::new();
    for script in scripts() {
        let calls = calls(&script);
        refused += calls.windows(2).filter(|two| is_tried_again(two)).count();
        if let Some(Call::LayDown { buffer }) = calls.last() {
            rooms.insert(buffer.room);
        }
    }
    assert!(refused > 150, "{refused}");
    assert!(rooms.len() > 3 && rooms.iter().next() == Some(&RECORD_BYTES));
}

fn is_tried_again(two: &[Call]) -> bool {
    match two {
        [Call::Piece { piece, .. }, Call::Piece { piece: next, .. }] => {
            piece == next && piece.len() > 1
        }
        _ => false,
    }
}

/// Each run begins with nothing kept: it sets the key up, and starts or takes up.
#[test]
fn every_run_begins_with_the_key_and_a_start_or_a_record() {
    for script in scripts() {
        let calls = calls(&script);
        assert!(matches!(calls[0], Call::SetUp { .. }));
        assert!(matches!(calls[1], Call::Start { .. } | Call::TakeUp { .. }));
        let others = &calls[2..];
        assert!(others
            .iter()
            .all(|call| [5, 6, 0x12].contains(&call.number())));
    }
}
