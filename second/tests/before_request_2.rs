//! What number 3 answered before request 2 now comes from number 4: the parts of the
//! script that were there then, with their numbers changed back and request 7's change taken
//! back, the answers to them, and the edge cases of the ciphers without request 7's.
//! Follows document 02, request 2, and the page on replay.

mod digest;
mod made_calls;
mod script_calls;
mod taken_back;

use digest::digest;
use made_calls::made;
use second::edges::ciphers;
use second::replay::call::Call;
use second::replay::record::{SCHEDULE_BYTES, STREAM_BYTES};
use taken_back::stood;

/// Length and digest of the script and of the answers of the base and request 1, as they
/// stood in `replay/script` and `replay/answers` before request 2.
const BEFORE: [(usize, u64); 2] = [
    (994_236, 0x111D_7F75_EC8C_400B),
    (899_914, 0x17BB_0662_769A_7C71),
];

/// Length and digest of the edge cases of ciphers 1, 2 and 3 as they stood in the
/// product's `crates/edges/stdout` before request 2.
const EDGES_BEFORE: (usize, u64) = (5148, 0x35F1_C05D_8E77_DEFB);

/// The number that stood where `today` stands, and took as many bytes: 3 was the earlier
/// Noekeon, and 4 was illegal, in whose place stands 7. Today's 3 is new, and no old part
/// has it.
fn before(today: u64) -> u64 {
    assert_ne!(today, 3, "an old part has today's number 3");
    match today {
        4 => 3,
        7 => 4,
        other => other,
    }
}

fn set_back(first: &mut u8) {
    *first = before((*first).into()) as u8;
}

fn with_number_before(mut call: Call) -> Call {
    match &mut call {
        Call::SetUp { cipher, .. } | Call::Entry { cipher, .. } => *cipher = before(*cipher),
        Call::KeepSchedule(record) => set_back(&mut record[0]),
        Call::KeepStream(record) => set_back(&mut record[0]),
        _ => {}
    }
    call
}

/// How many of the bytes that are written for the call, at the end, are a record that
/// begins with a cipher number.
fn record(call: &Call) -> usize {
    match call.number() {
        1 => SCHEDULE_BYTES,
        4..=6 => STREAM_BYTES,
        2 | 3 | 7..=0x0C => 0,
        number => panic!("an old part has call {number:02X}"),
    }
}

/// Script and answers with the numbers that they had before, by length and digest.
fn as_before(script: &[u8], answers: &[u8]) -> [(usize, u64); 2] {
    let [mut old_script, mut old_answers] = [Vec::new(), Vec::new()];
    for (call, mut back) in made(script, answers) {
        let place = back.len() - record(&call);
        if place < back.len() {
            set_back(&mut back[place]);
        }
        old_answers.extend(back);
        old_script.extend(with_number_before(call).bytes());
    }
    [old_script, old_answers].map(|old| (old.len(), digest(&old)))
}

#[test]
fn what_3_answered_before_comes_from_4() {
    let [script, answers] = stood(BEFORE[0].0);
    assert_eq!(as_before(&script, &answers), BEFORE);
}

#[test]
fn a_byte_that_differs_is_seen() {
    let [script, answers] = stood(BEFORE[0].0);
    let mut changed = answers.clone();
    *changed.last_mut().unwrap() ^= 1;
    assert_ne!(as_before(&script, &changed), BEFORE);
    let mut changed = script.clone();
    *changed.last_mut().unwrap() ^= 1;
    assert_ne!(as_before(&changed, &answers), BEFORE);
}

/// Request 7 brought eight lines for each cipher; they alone say what each byte is.
fn without_request_7(text: &str) -> String {
    let (new, old): (Vec<&str>, Vec<&str>) = text
        .lines()
        .partition(|line| line.contains(" bytes, each "));
    assert_eq!(new.len(), 4 * 8);
    old.iter().map(|line| format!("{line}\n")).collect()
}

#[test]
fn the_edge_cases_of_3_before_are_those_of_4() {
    let text = without_request_7(&ciphers());
    let new = text.find("cipher 3\n").unwrap();
    let earlier = text.find("cipher 4\n").unwrap();
    let before = text[..new].to_string() + &text[earlier..].replace("cipher 4\n", "cipher 3\n");
    assert_eq!((before.len(), digest(before.as_bytes())), EDGES_BEFORE);
}

#[test]
fn the_digest_is_fnv_1a() {
    assert_eq!(digest(b""), 0xCBF2_9CE4_8422_2325);
    assert_eq!(digest(b"a"), 0xAF63_DC4C_8601_EC8C);
    assert_eq!(digest(b"foobar"), 0x8594_4171_F739_67E8);
}
