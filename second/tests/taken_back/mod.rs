//! Script and answers with request 7's change taken back. A set-up that refuses a blank key
//! today made its schedule, which a call 08 right behind keeps today; an entry that refuses
//! one worked its block.
//! Follows document 02, request 7, and the page on replay.

use crate::made_calls::made;
use second::cipher::{decipher_block, encipher_block, schedule_of, Schedule};
use second::replay::call::Call;
use second::replay::ciphers::LEGAL;
use second::replay::record::{schedule_bytes, SCHEDULE_BYTES};

const BLANK_KEY: u8 = 17;

/// So many bytes of the script, and the answers to them, as the replay files had them.
pub fn stood(length: usize) -> [Vec<u8>; 2] {
    let [script, answers] = ["script", "answers"].map(|name| {
        let path = format!("{}/replay/{name}", env!("CARGO_MANIFEST_DIR"));
        std::fs::read(path).unwrap()
    });
    taken_back(&script, &answers, length)
}

/// Up to so many bytes of the script. Anything but the right refusal, and but the right
/// record behind it, stays as it is, so that a digest shows it.
pub fn taken_back(script: &[u8], answers: &[u8], length: usize) -> [Vec<u8>; 2] {
    let [mut old_script, mut old_answers] = [Vec::new(), Vec::new()];
    let mut inserted = None;
    for (call, back) in made(script, answers) {
        if old_script.len() >= length {
            break;
        }
        if inserted.as_ref() != Some(&call) {
            old_script.extend(call.bytes());
            old_answers.extend(answer_before(&call, &back).unwrap_or(back));
        }
        inserted = record_behind(&call);
    }
    [old_script, old_answers]
}

/// The schedule that the definitions make of the key, if it is legal and blank.
fn schedule_of_blank(cipher: u64, key: &[u8]) -> Option<Schedule> {
    let mut legal = LEGAL.into_iter();
    let (number, _) = legal.find(|&(c, l)| (cipher, key.len()) == (c.into(), l.into()))?;
    let blank = key.iter().all(|&byte| byte == key[0]);
    blank.then(|| schedule_of(number, key))
}

/// The call that request 7 put behind a set-up with a blank key.
pub fn record_behind(call: &Call) -> Option<Call> {
    match call {
        Call::SetUp { cipher, key } => {
            let schedule = schedule_of_blank(*cipher, key)?;
            Some(Call::KeepSchedule(Box::new(schedule_bytes(&schedule))))
        }
        _ => None,
    }
}

/// What was written for a call that refuses a blank key today, and rightly.
fn answer_before(call: &Call, back: &[u8]) -> Option<Vec<u8>> {
    match call {
        Call::SetUp { cipher, key } => {
            let schedule = schedule_of_blank(*cipher, key)?;
            let refused = back == [&[BLANK_KEY][..], &[0; SCHEDULE_BYTES]].concat();
            refused.then(|| [&[0][..], &schedule_bytes(&schedule)].concat())
        }
        Call::Entry {
            cipher,
            direction,
            key,
            block,
            buffer,
        } => {
            let schedule = schedule_of_blank(*cipher, key)?;
            let out = buffer.bytes();
            let refused = back == [&[BLANK_KEY][..], &out].concat();
            let worked = match direction {
                1 => encipher_block(&schedule, block, &out),
                2 => decipher_block(&schedule, block, &out),
                _ => return None,
            };
            refused.then(|| [&[worked.answer.number()][..], &worked.out].concat())
        }
        _ => None,
    }
}
