//! A message at random, read in several runs, and what is to come out of it.
//! Follows document 01, 'Refusal numbers', its last paragraph, and document 02, request 5.

use super::run::{Left, Run};
use super::Program;
use crate::bytes::{part, Block};
use crate::cbc;
use crate::cipher::{set_up, Schedule};
use crate::random::Random;
use crate::replay::ciphers::LEGAL;
use crate::replay::record::stream_bytes;
use crate::stream::{feed, finish, start, DECIPHER, ENCIPHER};

pub struct Message {
    pub cipher: u64,
    pub key: Vec<u8>,
    pub direction: u8,
    pub first: Block,
    bytes: Vec<u8>,
}

impl Message {
    /// Short and long ones, many of them of whole blocks.
    pub fn any(random: &mut Random) -> Message {
        let (cipher, key_length) = random.one_of(&LEGAL);
        let longest = random.one_of(&[40, 200, 600]);
        let length = random.below(longest + 1);
        let length = length - random.one_of(&[0, length % 16]);
        Message {
            cipher: cipher.into(),
            key: random.bytes(key_length.into()),
            direction: random.one_of(&[ENCIPHER, DECIPHER]),
            first: random.array(),
            bytes: random.bytes(length),
        }
    }

    pub fn length(&self) -> usize {
        self.bytes.len()
    }

    pub fn in_words(&self) -> String {
        format!(
            "{} bytes, cipher {}, a key of {} bytes, direction {}",
            self.length(),
            self.cipher,
            self.key.len(),
            self.direction
        )
    }

    /// One run up to each cut and one behind the last, then everything that came of them.
    pub fn read(
        &self,
        random: &mut Random,
        places: &[usize],
        program: &mut Program,
    ) -> Result<(), String> {
        let mut joined = Vec::new();
        let mut record = None;
        let mut from = 0;
        for &to in places {
            let mut run = self.run(random, record.as_deref(), from, to);
            run.lay_down(random);
            let Left { written, shown } = run.made(program)?;
            joined.extend(written);
            (record, from) = (Some(shown), to);
        }
        let mut run = self.run(random, record.as_deref(), from, self.length());
        if self.may_be_finished() {
            run.finish();
        }
        let Left { written, shown } = run.made(program)?;
        joined.extend(written);
        same("the joined bytes differ", &joined, &self.worked())?;
        same("the state at the end differs", &shown, &self.last_state())
    }

    /// The key set up, the stream begun or taken up, and the pieces between two places.
    fn run(&self, random: &mut Random, record: Option<&[u8]>, from: usize, to: usize) -> Run {
        let mut run = Run::with_key(self.cipher, &self.key);
        match record {
            None => run.start(self.direction, &self.first),
            Some(record) => run.take_up(record),
        }
        run.pieces(random, from, &self.bytes[from..to]);
        run
    }

    fn may_be_finished(&self) -> bool {
        self.length() % 16 == 0
    }

    fn schedule(&self) -> Schedule {
        set_up(self.cipher, &self.key).schedule
    }

    /// The CBC of the whole blocks.
    fn worked(&self) -> Vec<u8> {
        let schedule = self.schedule();
        let whole = self.bytes.chunks_exact(16);
        let blocks: Vec<Block> = whole.map(|block| part(block, 0)).collect();
        let worked = if self.direction == ENCIPHER {
            cbc::encipher(|block| schedule.encipher(block), self.first, &blocks)
        } else {
            cbc::decipher(|block| schedule.decipher(block), self.first, &blocks)
        };
        worked.concat()
    }

    /// The state that a single call leaves, finished where it may be.
    fn last_state(&self) -> Vec<u8> {
        let begun = start(&self.schedule(), self.direction.into(), &self.first).stream;
        let single = feed(&begun, &self.bytes, &vec![0; self.length()]).stream;
        let last = match self.may_be_finished() {
            true => finish(&single).stream,
            false => single,
        };
        stream_bytes(&last).to_vec()
    }
}

fn same(sentence: &str, found: &[u8], expected: &[u8]) -> Result<(), String> {
    let alike = found.iter().zip(expected).take_while(|(a, b)| a == b);
    match found == expected {
        true => Ok(()),
        false => Err(format!("{sentence} at byte {}", alike.count())),
    }
}
