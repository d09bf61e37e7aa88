//! The command from outside: its streams and its status.
//! Follows the page on the bench, 'What is said, and the status'.

use super::{slot, BAD_CARD};
use std::path::PathBuf;
use std::process::Command;

fn file(name: &str, bytes: &[u8]) -> String {
    let directory = PathBuf::from(env!("CARGO_TARGET_TMPDIR")).join("bench");
    std::fs::create_dir_all(&directory).unwrap();
    let path = directory.join(name);
    std::fs::write(&path, bytes).unwrap();
    path.to_str().unwrap().to_string()
}

fn second(words: &[&str]) -> (Vec<u8>, String, i32) {
    let mut command = Command::new(env!("CARGO_BIN_EXE_second"));
    let output = command.arg("bench").args(words).output().unwrap();
    let said = String::from_utf8(output.stderr).unwrap();
    (output.stdout, said, output.status.code().unwrap())
}

#[test]
fn what_is_made_goes_to_standard_output() {
    let table = file(
        "made.csv",
        b"recipe,segment,kind,target,rate,hold\n1,1,climb,600,150,0",
    );
    let record = slot(1, 1, 1, 6000, 1500, 0);
    assert_eq!(
        second(&["from", &table]),
        (record.clone(), String::new(), 0)
    );
    let card = file("made.card", &record);
    let other = second(&["put", &card, "1", "1", "climb", "600", "150", "1"]);
    assert_eq!(other, (slot(1, 1, 1, 6000, 1500, 1), String::new(), 0));
    assert_eq!(std::fs::read(&card).unwrap(), record);
    let changed = file("changed.card", &other.0);
    let line = "recipe 1 segment 1: changed: hold was 0 and is 1\n";
    let compared = (line.as_bytes().to_vec(), String::new(), 1);
    assert_eq!(second(&["compare", &card, &changed]), compared);
    assert_eq!(
        second(&["compare", &card, &card]),
        (vec![], String::new(), 0)
    );
}

#[test]
fn what_is_said_goes_to_standard_error() {
    let card = file("bad.card", &[0; 15]);
    let line = b"the card has 15 bytes, which is no multiple of 16\n".to_vec();
    assert_eq!(second(&["show", &card]), (line, BAD_CARD.to_string(), 1));
    assert_eq!(second(&["table", &card]), (vec![], BAD_CARD.to_string(), 1));
    assert_eq!(
        second(&["find", &card, "1", "1"]),
        (vec![], BAD_CARD.to_string(), 2)
    );
    let empty = file("empty.card", &[]);
    let not_there = "not there: recipe 1 segment 1 is not on the card\n".to_string();
    assert_eq!(second(&["find", &empty, "1", "1"]), (vec![], not_there, 1));
}

#[test]
fn a_file_that_is_not_there_fails() {
    for (words, status) in [
        (&["show", "nowhere"][..], 1),
        (&["from", "nowhere"], 1),
        (&["find", "nowhere", "1", "1"], 2),
        (&["compare", "nowhere", "nowhere"], 2),
    ] {
        let (out, said, code) = second(words);
        assert_eq!((out, code), (vec![], status));
        assert!(said.starts_with("failed: nowhere cannot be read: "));
    }
}

#[test]
fn a_wrong_call_is_answered_with_the_usage() {
    for words in [
        &[][..],
        &["from"],
        &["show", "a", "b"],
        &["find", "a", "1"],
        &["put", "a", "1", "1", "hold", "20", "0"],
        &["compare", "a"],
        &["seal", "three", "00", "a"],
        &["seal", "3", "0", "a"],
        &["check", "3", "00", "xy", "a"],
        &["send", "3", "00", "00", "a"],
        &["tidy", "a"],
    ] {
        let (out, said, code) = second(words);
        assert_eq!((out, code), (vec![], 2));
        assert!(
            said.starts_with("usage: second bench from TABLE\n"),
            "{said}"
        );
    }
}
