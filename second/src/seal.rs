//! The seal: its state, start, feed, write and check.
//! Follows document 02, request 3.

use crate::bytes::Block;
use crate::cipher::{written_over, Schedule};
use crate::cmac;
use crate::refusal::Answer;
use crate::stream::Stream;

/// Any value is a seal state; a bad one is refused by the calls.
#[derive(Clone, Debug, PartialEq, Eq)]
pub struct Seal {
    pub schedule: Schedule,
    pub count: u64,
    pub chain: Block,
    pub held: Block,
    pub closed: bool,
}

impl Seal {
    pub const LIMIT: u64 = Stream::LIMIT;

    pub const ZERO: Seal = Seal {
        schedule: Schedule::ZERO,
        count: 0,
        chain: [0; 16],
        held: [0; 16],
        closed: false,
    };

    /// 1 to 16, so that the count less it is a multiple of 16; 0 of no bytes.
    pub fn held_number(&self) -> usize {
        match self.count {
            0 => 0,
            count => ((count - 1) % 16 + 1) as usize,
        }
    }

    pub fn held_bytes(&self) -> &[u8] {
        &self.held[..self.held_number()]
    }

    pub fn is_bad(&self) -> bool {
        let unused = &self.held[self.held_number()..];
        self.schedule.is_bad()
            || self.count > Seal::LIMIT
            || unused.iter().any(|&byte| byte != 0)
            || (self.count <= 16 && self.chain != [0; 16])
    }

    /// The seal of all bytes so far; the schedule isn't bad.
    pub fn sealed(&self) -> Block {
        let e = |block| self.schedule.encipher(block);
        cmac::ended(e, self.chain, self.held_bytes())
    }

    fn closed(&self) -> Seal {
        Seal {
            closed: true,
            ..self.clone()
        }
    }
}

/// What start and a piece give back.
#[derive(Clone, Debug, PartialEq, Eq)]
pub struct Next {
    pub answer: Answer,
    pub seal: Seal,
}

pub fn start(schedule: &Schedule) -> Next {
    let answer = Answer::first(&[(Answer::BadSchedule, schedule.is_bad())]);
    let seal = match answer {
        Answer::Done => Seal {
            schedule: schedule.clone(),
            ..Seal::ZERO
        },
        _ => Seal::ZERO,
    };
    Next { answer, seal }
}

pub fn feed(seal: &Seal, piece: &[u8]) -> Next {
    let after = u128::from(seal.count) + piece.len() as u128;
    let answer = Answer::first(&[
        (Answer::BadState, seal.is_bad()),
        (Answer::Closed, seal.closed),
        (Answer::OverLimit, after > u128::from(Seal::LIMIT)),
    ]);
    let seal = match answer {
        Answer::Done => accepted(seal, piece),
        _ => seal.clone(),
    };
    Next { answer, seal }
}

/// All blocks of held ++ piece but the last are chained; the last is held.
fn accepted(seal: &Seal, piece: &[u8]) -> Seal {
    let bytes = [seal.held_bytes(), piece].concat();
    let (blocks, last) = cmac::parted(&bytes);
    let e = |block| seal.schedule.encipher(block);
    let mut held = [0; 16];
    held[..last.len()].copy_from_slice(last);
    Seal {
        count: seal.count + piece.len() as u64,
        chain: cmac::chained(e, seal.chain, &blocks),
        held,
        ..seal.clone()
    }
}

/// What writing the seal gives back: `out` is the output as it is afterwards.
#[derive(Clone, Debug, PartialEq, Eq)]
pub struct Written {
    pub answer: Answer,
    pub out: Vec<u8>,
    pub seal: Seal,
}

pub fn write(seal: &Seal, out: &[u8]) -> Written {
    let answer = Answer::first(&[
        (Answer::BadState, seal.is_bad()),
        (Answer::Closed, seal.closed),
        (Answer::NoRoom, out.len() < 16),
    ]);
    let (out, seal) = match answer {
        Answer::Done => (written_over(out, &seal.sealed()), seal.closed()),
        _ => (out.to_vec(), seal.clone()),
    };
    Written { answer, out, seal }
}

/// What a check gives back: `yes` if the given bytes are the seal.
#[derive(Clone, Debug, PartialEq, Eq)]
pub struct Checked {
    pub answer: Answer,
    pub yes: bool,
    pub seal: Seal,
}

pub fn check(seal: &Seal, given: &[u8]) -> Checked {
    let answer = Answer::first(&[
        (Answer::BadState, seal.is_bad()),
        (Answer::Closed, seal.closed),
    ]);
    let (yes, seal) = match answer {
        Answer::Done => (given == seal.sealed(), seal.closed()),
        _ => (false, seal.clone()),
    };
    Checked { answer, yes, seal }
}
