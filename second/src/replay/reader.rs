//! A script taken apart: one call after the other, or nothing where it is broken.
//! Follows the page on replay, its second and last paragraphs.

use super::call::{Buffer, Call};

/// Strings and buffers hold at most so many bytes.
pub const LONGEST: usize = 8192;

pub struct Reader<'a> {
    rest: &'a [u8],
}

impl<'a> Reader<'a> {
    pub fn new(script: &'a [u8]) -> Reader<'a> {
        Reader { rest: script }
    }

    pub fn at_end(&self) -> bool {
        self.rest.is_empty()
    }

    /// The next call; nothing if it is unknown, too long or cut off.
    pub fn call(&mut self) -> Option<Call> {
        match self.take(1)?[0] {
            number @ 0..=9 => self.call_of_the_base(number),
            number => self.call_of_a_request(number),
        }
    }

    fn call_of_the_base(&mut self, number: u8) -> Option<Call> {
        Some(match number {
            1 => Call::SetUp {
                cipher: self.eight()?,
                key: self.string()?,
            },
            2 => Call::Encipher {
                block: self.string()?,
                buffer: self.buffer()?,
            },
            3 => Call::Decipher {
                block: self.string()?,
                buffer: self.buffer()?,
            },
            4 => Call::Start {
                direction: self.eight()?,
                first: self.string()?,
            },
            5 => Call::Piece {
                piece: self.string()?,
                buffer: self.buffer()?,
            },
            6 => Call::Finish,
            7 => self.entry()?,
            8 => Call::KeepSchedule(Box::new(self.array()?)),
            9 => Call::KeepStream(Box::new(self.array()?)),
            _ => return None,
        })
    }

    fn call_of_a_request(&mut self, number: u8) -> Option<Call> {
        Some(match number {
            0x0A => Call::IsGood {
                card: self.string()?,
            },
            0x0B => self.find()?,
            0x0C => Call::Put {
                card: self.string()?,
                record: self.string()?,
            },
            0x0D => Call::StartSeal,
            0x0E => Call::PieceOfSeal {
                piece: self.string()?,
            },
            0x0F => Call::WriteSeal {
                buffer: self.buffer()?,
            },
            0x10 => Call::CheckSeal {
                given: self.string()?,
            },
            0x11 => Call::KeepSeal(Box::new(self.array()?)),
            0x12 => Call::LayDown {
                buffer: self.buffer()?,
            },
            0x13 => Call::TakeUp {
                record: self.string()?,
            },
            0x14 => Call::Compare {
                cards: [self.string()?, self.string()?],
                buffer: self.buffer()?,
            },
            _ => return None,
        })
    }

    fn entry(&mut self) -> Option<Call> {
        Some(Call::Entry {
            cipher: self.eight()?,
            direction: self.eight()?,
            key: self.string()?,
            block: self.string()?,
            buffer: self.buffer()?,
        })
    }

    fn find(&mut self) -> Option<Call> {
        Some(Call::Find {
            card: self.string()?,
            recipe: self.eight()?,
            segment: self.eight()?,
        })
    }

    fn take(&mut self, length: usize) -> Option<&'a [u8]> {
        let taken = self.rest.get(..length)?;
        self.rest = &self.rest[length..];
        Some(taken)
    }

    fn array<const N: usize>(&mut self) -> Option<[u8; N]> {
        self.take(N)?.try_into().ok()
    }

    fn eight(&mut self) -> Option<u64> {
        self.array().map(u64::from_be_bytes)
    }

    fn length(&mut self) -> Option<usize> {
        let length = u32::from_be_bytes(self.array()?) as usize;
        (length <= LONGEST).then_some(length)
    }

    fn string(&mut self) -> Option<Vec<u8>> {
        let length = self.length()?;
        self.take(length).map(<[u8]>::to_vec)
    }

    fn buffer(&mut self) -> Option<Buffer> {
        Some(Buffer {
            room: self.length()?,
            filler: self.take(1)?[0],
        })
    }
}
