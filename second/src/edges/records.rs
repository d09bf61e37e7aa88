//! The edge cases of readings laid down and taken up.
//! Follows document 02, request 5.

use super::{hex, BEFORE};
use crate::cipher::{set_up, Schedule};
use crate::reading::{lay_down, record_of, take_up};
use crate::stream::{feed, finish, start, Stream};

const KEY: &[u8; 16] = b"0123456789abcdef";
const OTHER: &[u8; 16] = b"fedcba9876543210";
const FIRST: &[u8; 16] = b"the first block.";
const TEXT: &[u8; 31] = b"the message of thirty-one bytes";

/// Where the fields of a record lie.
const CIPHER: usize = 0;
const KEY_LENGTH: usize = 1;
const DIRECTION: usize = 2;
const CLOSED: usize = 3;
const COUNT: usize = 4;
const LAST_HELD: usize = 39;

pub fn records() -> String {
    (1..=4).map(of_cipher).collect()
}

fn of_cipher(cipher: u8) -> String {
    let schedule = set_up(cipher.into(), KEY).schedule;
    let other = set_up(cipher.into(), OTHER).schedule;
    let fresh = start(&schedule, 1, FIRST).stream;
    let stream = feed(&fresh, TEXT, &[BEFORE; 16]).stream;
    [
        format!("cipher {cipher}\n"),
        laying_down(&fresh, &stream),
        taking_up(&stream, &schedule, &other),
        schedules_of_zeros(&stream),
        lengths(&stream),
        kinds(&stream),
        other_fields(&stream),
        behind_the_end(&stream),
    ]
    .concat()
}

fn laid_down(name: &str, stream: &Stream, room: usize) -> String {
    let back = lay_down(stream, &vec![BEFORE; room]);
    let (answer, out) = (back.answer.number(), hex(&back.out));
    format!("  {name}: answer {answer}, output {out}\n")
}

/// The line of a record taken up, and the stream that comes of it.
fn taken(name: &str, schedule: &Schedule, record: &[u8]) -> (String, Stream) {
    let back = take_up(schedule, record);
    let stream = back.stream;
    let open_or_closed = if stream.closed { "closed" } else { "open" };
    let line = format!(
        "  {name}: answer {}, direction {}, count {}, chain {}, held {}, {open_or_closed}\n",
        back.answer.number(),
        stream.direction,
        stream.count,
        hex(&stream.chain),
        hex(&stream.held),
    );
    (line, stream)
}

fn taken_up(name: &str, schedule: &Schedule, record: &[u8]) -> String {
    taken(name, schedule, record).0
}

fn then_a_piece(name: &str, schedule: &Schedule, record: &[u8]) -> String {
    let (line, stream) = taken(name, schedule, record);
    line + &piece("then a piece of 1", &stream)
}

fn piece(name: &str, stream: &Stream) -> String {
    let back = feed(stream, &TEXT[..1], &[BEFORE; 16]);
    let (answer, written, out) = (back.answer.number(), back.written, hex(&back.out));
    format!("  {name}: answer {answer}, writes {written}, output {out}\n")
}

/// The record with other bytes at some places.
fn changed(record: &[u8], places: &[(usize, u8)]) -> Vec<u8> {
    let mut record = record.to_vec();
    for &(place, byte) in places {
        record[place] = byte;
    }
    record
}

fn with_count(record: &[u8], count: u32) -> Vec<u8> {
    let places = (COUNT..).zip(count.to_be_bytes());
    changed(record, &places.collect::<Vec<_>>())
}

fn laying_down(fresh: &Stream, stream: &Stream) -> String {
    [
        laid_down("a stream of zeros laid down", &Stream::ZERO, 40),
        laid_down("a fresh stream laid down", fresh, 40),
        laid_down("31 bytes fed, laid down in 39 of room", stream, 39),
        laid_down("then in 41 of room", stream, 41),
    ]
    .concat()
}

fn taking_up(stream: &Stream, schedule: &Schedule, other: &Schedule) -> String {
    let record = record_of(stream);
    [
        then_a_piece("taken up", schedule, &record),
        piece("the stream that was laid down, a piece of 1", stream),
        then_a_piece("taken up under another key", other, &record),
    ]
    .concat()
}

fn schedules_of_zeros(stream: &Stream) -> String {
    let line = |name, record| taken_up(name, &Schedule::ZERO, record);
    [
        line("taken up under a schedule of zeros", &record_of(stream)),
        line("no bytes under a schedule of zeros", &[]),
    ]
    .concat()
}

fn lengths(stream: &Stream) -> String {
    let longer = [record_of(stream), vec![0; 4]].concat();
    let line = |name, length| taken_up(name, &stream.schedule, &longer[..length]);
    [
        line("no bytes", 0),
        line("39 bytes", 39),
        line("41 bytes", 41),
        line("44 bytes", 44),
    ]
    .concat()
}

fn kinds(stream: &Stream) -> String {
    let record = record_of(stream);
    let another = (CIPHER, record[CIPHER] % 4 + 1);
    let line = |name, places: &[_]| taken_up(name, &stream.schedule, &changed(&record, places));
    [
        line("cipher 0", &[(CIPHER, 0)]),
        line("cipher 5", &[(CIPHER, 5)]),
        line("another cipher", &[another]),
        line(
            "another cipher, and direction 3",
            &[another, (DIRECTION, 3)],
        ),
        line("a key length of 15", &[(KEY_LENGTH, 15)]),
        line("a key length of 24", &[(KEY_LENGTH, 24)]),
        line("a key length of 32", &[(KEY_LENGTH, 32)]),
    ]
    .concat()
}

fn other_fields(stream: &Stream) -> String {
    let record = record_of(stream);
    let line = |name: &str, record: &[u8]| taken_up(name, &stream.schedule, record);
    let at = |name, place, byte| line(name, &changed(&record, &[(place, byte)]));
    let count = |count| line(&format!("a count of {count}"), &with_count(&record, count));
    [
        at("direction 0", DIRECTION, 0),
        at("direction 2", DIRECTION, 2),
        at("direction 3", DIRECTION, 3),
        at("closed, with 15 bytes held", CLOSED, 1),
        at("a closed byte of 2", CLOSED, 2),
        count(30),
        count(31 + (1 << 24)),
        at("the last held byte 1", LAST_HELD, 1),
    ]
    .concat()
}

fn behind_the_end(stream: &Stream) -> String {
    let schedule = &stream.schedule;
    let whole = feed(stream, &TEXT[..1], &[BEFORE; 16]).stream;
    let ended = finish(&whole).stream;
    let record = record_of(&ended);
    let open = |count| with_count(&changed(&record, &[(CLOSED, 0)]), count);
    [
        laid_down("32 bytes and finish, laid down", &ended, 40),
        then_a_piece("taken up", schedule, &record),
        then_a_piece("a count of 1048576", schedule, &open(1_048_576)),
        taken_up("a count of 1048577", schedule, &open(1_048_577)),
    ]
    .concat()
}
