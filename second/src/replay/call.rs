//! One call of a script, and the bytes that stand for it there.
//! Follows the page on replay, its tables.

use super::record::{SCHEDULE_BYTES, SEAL_BYTES, STREAM_BYTES};

/// An output buffer before the call: `room` bytes, each of them `filler`.
#[derive(Clone, Copy, Debug, PartialEq, Eq)]
pub struct Buffer {
    pub room: usize,
    pub filler: u8,
}

impl Buffer {
    pub fn bytes(self) -> Vec<u8> {
        vec![self.filler; self.room]
    }
}

/// Records stay bytes here, for a script may hold any byte in any place of them.
#[derive(Clone, Debug, PartialEq, Eq)]
pub enum Call {
    SetUp {
        cipher: u64,
        key: Vec<u8>,
    },
    Encipher {
        block: Vec<u8>,
        buffer: Buffer,
    },
    Decipher {
        block: Vec<u8>,
        buffer: Buffer,
    },
    Start {
        direction: u64,
        first: Vec<u8>,
    },
    Piece {
        piece: Vec<u8>,
        buffer: Buffer,
    },
    Finish,
    Entry {
        cipher: u64,
        direction: u64,
        key: Vec<u8>,
        block: Vec<u8>,
        buffer: Buffer,
    },
    KeepSchedule(Box<[u8; SCHEDULE_BYTES]>),
    KeepStream(Box<[u8; STREAM_BYTES]>),
    IsGood {
        card: Vec<u8>,
    },
    Find {
        card: Vec<u8>,
        recipe: u64,
        segment: u64,
    },
    Put {
        card: Vec<u8>,
        record: Vec<u8>,
    },
    StartSeal,
    PieceOfSeal {
        piece: Vec<u8>,
    },
    WriteSeal {
        buffer: Buffer,
    },
    CheckSeal {
        given: Vec<u8>,
    },
    KeepSeal(Box<[u8; SEAL_BYTES]>),
    LayDown {
        buffer: Buffer,
    },
    TakeUp {
        record: Vec<u8>,
    },
    Compare {
        cards: [Vec<u8>; 2],
        buffer: Buffer,
    },
}

impl Call {
    pub fn number(&self) -> u8 {
        match self {
            Call::SetUp { .. } => 1,
            Call::Encipher { .. } => 2,
            Call::Decipher { .. } => 3,
            Call::Start { .. } => 4,
            Call::Piece { .. } => 5,
            Call::Finish => 6,
            Call::Entry { .. } => 7,
            Call::KeepSchedule(_) => 8,
            Call::KeepStream(_) => 9,
            Call::IsGood { .. } => 0x0A,
            Call::Find { .. } => 0x0B,
            Call::Put { .. } => 0x0C,
            Call::StartSeal => 0x0D,
            Call::PieceOfSeal { .. } => 0x0E,
            Call::WriteSeal { .. } => 0x0F,
            Call::CheckSeal { .. } => 0x10,
            Call::KeepSeal(_) => 0x11,
            Call::LayDown { .. } => 0x12,
            Call::TakeUp { .. } => 0x13,
            Call::Compare { .. } => 0x14,
        }
    }

    pub fn bytes(&self) -> Vec<u8> {
        let rest = match self {
            Call::SetUp { cipher, key } => vec![eight(*cipher), string(key)],
            Call::Encipher { block, buffer } | Call::Decipher { block, buffer } => {
                vec![string(block), room(*buffer)]
            }
            Call::Start { direction, first } => vec![eight(*direction), string(first)],
            Call::Piece { piece, buffer } => vec![string(piece), room(*buffer)],
            Call::Finish | Call::StartSeal => vec![],
            Call::Entry {
                cipher,
                direction,
                key,
                block,
                buffer,
            } => vec![
                eight(*cipher),
                eight(*direction),
                string(key),
                string(block),
                room(*buffer),
            ],
            Call::KeepSchedule(bytes) => vec![bytes.to_vec()],
            Call::KeepStream(bytes) | Call::KeepSeal(bytes) => vec![bytes.to_vec()],
            Call::IsGood { card } => vec![string(card)],
            Call::Find {
                card,
                recipe,
                segment,
            } => vec![string(card), eight(*recipe), eight(*segment)],
            Call::Put { card, record } => vec![string(card), string(record)],
            Call::PieceOfSeal { piece } => vec![string(piece)],
            Call::WriteSeal { buffer } | Call::LayDown { buffer } => vec![room(*buffer)],
            Call::CheckSeal { given } => vec![string(given)],
            Call::TakeUp { record } => vec![string(record)],
            Call::Compare { cards, buffer } => vec![strings(cards), room(*buffer)],
        };
        [vec![self.number()], rest.concat()].concat()
    }
}

fn eight(number: u64) -> Vec<u8> {
    number.to_be_bytes().to_vec()
}

fn four(length: usize) -> Vec<u8> {
    (length as u32).to_be_bytes().to_vec()
}

/// A length in 4 bytes, then so many bytes.
pub fn string(bytes: &[u8]) -> Vec<u8> {
    [&four(bytes.len()), bytes].concat()
}

fn strings(list: &[Vec<u8>]) -> Vec<u8> {
    list.iter().flat_map(|bytes| string(bytes)).collect()
}

fn room(buffer: Buffer) -> Vec<u8> {
    [four(buffer.room), vec![buffer.filler]].concat()
}
