//! Seals, and a card sent and received.
//! Follows the page on a sent card, and that on the bench for `seal` and `check`.

use super::BAD_CARD;
use crate::card::{good, SLOT, SLOTS};
use crate::cipher::{set_up, Schedule};
use crate::refusal::Answer;
use crate::seal;
use crate::stream;

const BLOCK: usize = 16;
const LEAST: usize = 2 * BLOCK;
const MOST: usize = LEAST + SLOT * SLOTS;

fn done(answer: Answer) -> Result<(), String> {
    match answer {
        Answer::Done => Ok(()),
        _ => Err(format!("refused {}", answer.number())),
    }
}

pub fn schedule(cipher: u64, key: &[u8]) -> Result<Schedule, String> {
    let set_up = set_up(cipher, key);
    done(set_up.answer)?;
    Ok(set_up.schedule)
}

fn fed(schedule: &Schedule, message: &[u8]) -> Result<seal::Seal, String> {
    let started = seal::start(schedule);
    done(started.answer)?;
    let fed = seal::feed(&started.seal, message);
    done(fed.answer)?;
    Ok(fed.seal)
}

pub fn sealed(schedule: &Schedule, message: &[u8]) -> Result<Vec<u8>, String> {
    let written = seal::write(&fed(schedule, message)?, &[0; BLOCK]);
    done(written.answer)?;
    Ok(written.out)
}

pub fn is_seal(schedule: &Schedule, message: &[u8], given: &[u8]) -> Result<bool, String> {
    let checked = seal::check(&fed(schedule, message)?, given);
    done(checked.answer)?;
    Ok(checked.yes)
}

/// The chain's schedule, then the seal's.
fn schedules(cipher: u64, keys: [&[u8]; 2]) -> Result<[Schedule; 2], String> {
    let [chain, seal] = keys;
    let schedules = [schedule(cipher, chain)?, schedule(cipher, seal)?];
    match chain == seal {
        true => Err("failed: the two lines of the key file are the same".to_string()),
        false => Ok(schedules),
    }
}

fn streamed(
    schedule: &Schedule,
    direction: u8,
    first: &[u8],
    message: &[u8],
) -> Result<Vec<u8>, String> {
    let started = stream::start(schedule, direction.into(), first);
    done(started.answer)?;
    let fed = stream::feed(&started.stream, message, &vec![0; message.len()]);
    done(fed.answer)?;
    done(stream::finish(&fed.stream).answer)?;
    Ok(fed.out)
}

pub fn send(cipher: u64, keys: [&[u8]; 2], first: &[u8], card: &[u8]) -> Result<Vec<u8>, String> {
    let [chain, seal] = schedules(cipher, keys)?;
    if !good(card) {
        return Err(BAD_CARD.to_string());
    }
    let enciphered = streamed(&chain, stream::ENCIPHER, first, card)?;
    let front = [first, &enciphered].concat();
    let seal = sealed(&seal, &front)?;
    Ok([front, seal].concat())
}

pub fn receive(cipher: u64, keys: [&[u8]; 2], file: &[u8]) -> Result<Vec<u8>, String> {
    let [chain, seal] = schedules(cipher, keys)?;
    length(file.len())?;
    if !is_sealed(&seal, file)? {
        return Err(trouble(cipher, keys, [&chain, &seal], file)?);
    }
    let (first, behind) = file.split_at(BLOCK);
    let enciphered = &behind[..behind.len() - BLOCK];
    let card = streamed(&chain, stream::DECIPHER, first, enciphered)?;
    match good(&card) {
        true => Ok(card),
        false => Err(
            "refused 12: the seal is right, so the file is as it was sent, but what it \
             deciphers to is no good card; the first key is another"
                .to_string(),
        ),
    }
}

fn length(bytes: usize) -> Result<(), String> {
    let said = match bytes {
        LEAST..=MOST if bytes % BLOCK == 0 => return Ok(()),
        0..=MOST => bytes.to_string(),
        _ => format!("more than {MOST}"),
    };
    Err(format!(
        "failed: the file has {said} bytes, and a sent card has {LEAST} to {MOST}, \
         a multiple of {BLOCK}; it was cut or lengthened, or is none"
    ))
}

/// Whether the last block is the seal of all in front of it.
fn is_sealed(schedule: &Schedule, bytes: &[u8]) -> Result<bool, String> {
    let (front, seal) = bytes.split_at(bytes.len() - BLOCK);
    is_seal(schedule, front, seal)
}

/// What is said of a file whose seal is not right.
fn trouble(
    cipher: u64,
    keys: [&[u8]; 2],
    [chain, seal]: [&Schedule; 2],
    file: &[u8],
) -> Result<String, String> {
    if let Some(bytes) = sealed_front(seal, file)? {
        return Ok(format!(
            "failed: the first {bytes} bytes are a whole sealed card; the file was lengthened"
        ));
    }
    if is_sealed(chain, file)? {
        let said = "failed: the seal is right under the first key; \
                    the two lines of the key file are exchanged";
        return Ok(said.to_string());
    }
    let others = (1..=4).filter(|&other| other != cipher);
    let mut able = others.filter_map(|other| Some((other, schedule(other, keys[1]).ok()?)));
    let found = able.find(|(_, schedule)| is_sealed(schedule, file) == Ok(true));
    Ok(match found {
        Some((other, _)) => {
            format!("failed: the seal is right under another cipher, number {other}; take that one")
        }
        None => "failed: the seal is not that of the file; the file was changed or cut, or the \
                 second key is another, which cannot be told apart; to learn which, seal any \
                 file with the second key on both sides and compare"
            .to_string(),
    })
}

/// The length of the shortest front with its seal at its end. The seal state goes along
/// from block to block, and each next block is held against its seal.
fn sealed_front(schedule: &Schedule, file: &[u8]) -> Result<Option<usize>, String> {
    let blocks: Vec<&[u8]> = file.chunks(BLOCK).collect();
    let mut state = fed(schedule, blocks[0])?;
    for (place, block) in blocks.iter().enumerate().skip(1) {
        let checked = seal::check(&state, block);
        done(checked.answer)?;
        if checked.yes {
            return Ok(Some(BLOCK * (place + 1)));
        }
        let fed = seal::feed(&state, block);
        done(fed.answer)?;
        state = fed.seal;
    }
    Ok(None)
}

/// Hex digits; spaces and tabs do not count.
pub fn bytes_of(hex: &str) -> Option<Vec<u8>> {
    let counting = hex.chars().filter(|&c| c != ' ' && c != '\t');
    let digits: Option<Vec<u32>> = counting.map(|c| c.to_digit(16)).collect();
    let pairs = digits.filter(|digits| digits.len() % 2 == 0)?;
    let bytes = pairs.chunks(2).map(|pair| (16 * pair[0] + pair[1]) as u8);
    Some(bytes.collect())
}

pub fn hex(block: &[u8]) -> String {
    let number = block.iter().map(|byte| format!("{byte:02x}"));
    number.collect()
}
