//! The blanks part of the script: keys whose bytes are all equal, keys that nearly are, and
//! schedules whose round keys are.
//! Follows document 02, request 7.

mod broken;
mod lengths;
mod nearly;
mod records;
mod values;

use super::call::Call;
use super::script::{room, Script};
use crate::random::Random;

pub fn write(script: &mut Script) {
    let random = Random::seeded(9);
    let blanks = &mut Blanks { script, random };
    values::write(blanks);
    nearly::write(blanks);
    lengths::write(blanks);
    broken::write(blanks);
    records::write(blanks);
}

/// The script while keys are tried in it. What isn't said of a call is drawn.
pub struct Blanks<'a> {
    script: &'a mut Script,
    random: Random,
}

/// The rules that an entry breaks beside those of its key: each a bit of a sum.
const DIRECTION: u8 = 1;
const BLOCK: u8 = 2;
const ROOM: u8 = 4;

impl Blanks<'_> {
    fn entry(&mut self, cipher: u64, key: &[u8], broken: u8) {
        let block_length = self.pick(broken & BLOCK, (&[0, 1, 15, 17], &[16]));
        self.entry_of_block(cipher, key, broken, block_length);
    }

    fn entry_of_block(&mut self, cipher: u64, key: &[u8], broken: u8, block_length: usize) {
        let direction = self.pick(broken & DIRECTION, (&[0, 3, 257, 258], &[1, 2]));
        let space = self.pick(broken & ROOM, (&[0, 1, 15], &[16, 17, 24]));
        self.script.call(Call::Entry {
            cipher,
            direction,
            key: key.to_vec(),
            block: self.random.bytes(block_length),
            buffer: room(space, self.random.byte()),
        });
    }

    fn pick<T: Copy>(&mut self, broken: u8, (bad, good): (&[T], &[T])) -> T {
        self.random.one_of(if broken > 0 { bad } else { good })
    }

    /// One block, either way.
    fn block(&mut self) {
        let (block, buffer) = (self.random.bytes(16), room(16, self.random.byte()));
        match self.random.below(2) {
            0 => self.script.encipher(&block, buffer),
            _ => self.script.decipher(&block, buffer),
        }
    }

    fn start(&mut self) {
        let direction = self.random.one_of(&[1, 2]);
        self.script.start(direction, &self.random.bytes(16));
    }

    /// A key of so many bytes that are all equal: often of zeros or of ones.
    fn any_blank(&mut self, length: usize) -> Vec<u8> {
        let any = self.random.byte();
        vec![self.random.one_of(&[0x00, 0xFF, any, any]); length]
    }
}
