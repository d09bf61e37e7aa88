//! The command from outside: its exit codes, the files it writes and checks, and what
//! it prints.
//! Follows the page on replay.

use second::edges;
use second::replay::{run, script, Extent};
use std::io::Write;
use std::path::PathBuf;
use std::process::{Command, Output, Stdio};

fn second(arguments: &[&str]) -> Output {
    Command::new(env!("CARGO_BIN_EXE_second"))
        .args(arguments)
        .output()
        .unwrap()
}

fn fresh_directory(name: &str) -> PathBuf {
    let directory = PathBuf::from(env!("CARGO_TARGET_TMPDIR")).join(name);
    let _ = std::fs::remove_dir_all(&directory);
    directory
}

#[test]
fn what_replay_writes_check_accepts() {
    for (name, extent, word) in [
        ("whole", Extent::Whole, None),
        ("blocks", Extent::Blocks, Some("blocks")),
    ] {
        let directory = fresh_directory(name);
        let path = directory.to_str().unwrap();
        let with = |command| [Some(command), Some(path), word];
        let replay: Vec<&str> = with("replay").into_iter().flatten().collect();
        let check: Vec<&str> = with("check").into_iter().flatten().collect();
        assert!(second(&replay).status.success());
        let written = script(extent);
        assert!(std::fs::read(directory.join("script")).unwrap() == written);
        assert!(std::fs::read(directory.join("answers")).unwrap() == run(&written));
        assert!(second(&check).status.success());
    }
}

#[test]
fn check_refuses_a_changed_a_shorter_and_a_missing_file() {
    for name in ["script", "answers"] {
        let directory = fresh_directory(&format!("changed_{name}"));
        let path = directory.to_str().unwrap();
        assert!(second(&["replay", path]).status.success());
        let file = directory.join(name);
        let bytes = std::fs::read(&file).unwrap();
        let mut changed = bytes.clone();
        changed[1000] ^= 1;
        let longer = [&bytes[..], &[0]].concat();
        for other in [&changed, &bytes[..bytes.len() - 1], &longer] {
            std::fs::write(&file, other).unwrap();
            refused_with_one_sentence(&["check", path]);
        }
        std::fs::remove_file(&file).unwrap();
        refused_with_one_sentence(&["check", path]);
    }
}

fn refused_with_one_sentence(arguments: &[&str]) {
    let output = second(arguments);
    assert_eq!(output.status.code(), Some(1));
    assert_eq!(
        output.stderr.iter().filter(|&&byte| byte == b'\n').count(),
        1
    );
}

#[test]
fn the_whole_files_are_not_the_blocks_files() {
    let directory = fresh_directory("mixed");
    let path = directory.to_str().unwrap();
    assert!(second(&["replay", path]).status.success());
    refused_with_one_sentence(&["check", path, "blocks"]);
}

#[test]
fn run_interprets_standard_input() {
    let mut child = Command::new(env!("CARGO_BIN_EXE_second"))
        .arg("run")
        .stdin(Stdio::piped())
        .stdout(Stdio::piped())
        .spawn()
        .unwrap();
    child.stdin.take().unwrap().write_all(&[6, 0x55]).unwrap();
    let output = child.wait_with_output().unwrap();
    assert!(output.status.success());
    assert_eq!(output.stdout, run(&[6, 0x55]));
    assert_eq!(output.stdout.last(), Some(&0xFF));
}

#[test]
fn edges_prints_the_edge_cases() {
    for (word, text) in [
        ("cards", edges::cards()),
        ("ciphers", edges::ciphers()),
        ("seals", edges::seals()),
        ("records", edges::records()),
        ("cuts", edges::cuts()),
        ("compare", edges::compare()),
    ] {
        let output = second(&["edges", word]);
        assert!(output.status.success());
        assert_eq!(output.stdout, text.into_bytes());
        assert!(output.stderr.is_empty());
    }
}

#[test]
fn anything_else_is_answered_with_the_usage() {
    for arguments in [
        &[][..],
        &["replay"],
        &["check"],
        &["run", "here"],
        &["replay", "here", "streams"],
        &["replay", "here", "cards"],
        &["edges"],
        &["edges", "blocks"],
        &["edges", "cipher"],
        &["edges", "cards", "here"],
        &["edges", "cards", "ciphers"],
        &["edges", "ciphers", "3"],
        &["edges", "seal"],
        &["edges", "seals", "3"],
        &["replay", "here", "seals"],
        &["edges", "record"],
        &["edges", "records", "3"],
        &["edges", "cuts", "3"],
        &["replay", "here", "records"],
        &["edges", "compares"],
        &["edges", "compare", "3"],
        &["replay", "here", "compares"],
        &["cuts"],
        &["help"],
    ] {
        let output = second(arguments);
        assert_eq!(output.status.code(), Some(2));
        assert!(output.stderr.starts_with(b"usage"));
        assert!(output.stdout.is_empty());
    }
}
