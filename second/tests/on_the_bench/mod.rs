//! The bench on files in memory.

mod any;
mod compares;
mod curves;
mod example_curve;
mod from_outside;
mod puts;
mod seals;
mod sents;
mod shows;
mod tables;
mod times;

use second::bench::{bench, Outcome};

pub const BAD_CARD: &str =
    "refused 12: the card is bad; ./recipe card show names every rule that it breaks\n";

type Slot = Vec<u8>;

/// A slot by its numbers, legal or not.
pub fn slot(recipe: u16, segment: u8, kind: u8, target: u16, rate: u16, hold: u16) -> Slot {
    let [r, t, a, h] = [recipe, target, rate, hold].map(u16::to_be_bytes);
    let numbers = [
        r[0], r[1], segment, kind, t[0], t[1], a[0], a[1], h[0], h[1],
    ];
    [&numbers[..], &[0; 6]].concat()
}

pub fn run(words: &[&str], files: &[(&str, &[u8])]) -> Outcome {
    let read = |name: &str| {
        let file = files.iter().find(|file| file.0 == name);
        let file = file.ok_or(format!("failed: there is no {name}"))?;
        Ok(file.1.to_vec())
    };
    bench(words, &read)
}

/// What is written where nothing is said and the status is 0.
#[track_caller]
pub fn made(words: &[&str], files: &[(&str, &[u8])]) -> Vec<u8> {
    let Outcome { out, said, status } = run(words, files);
    assert_eq!((&said[..], status), ("", 0));
    out
}

/// The same as text.
#[track_caller]
pub fn text(words: &[&str], files: &[(&str, &[u8])]) -> String {
    String::from_utf8(made(words, files)).unwrap()
}

/// What is said where nothing is written.
#[track_caller]
pub fn said(words: &[&str], files: &[(&str, &[u8])], status: u8) -> String {
    let outcome = run(words, files);
    assert_eq!((&outcome.out[..], outcome.status), (&[][..], status));
    outcome.said
}

/// The lines, each ended by a line feed.
pub fn lines(lines: &[&str]) -> String {
    lines.iter().map(|line| format!("{line}\n")).collect()
}
