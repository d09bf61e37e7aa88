//! Counts what the calls were, so that a run that left a kind of call out isn't
//! taken for a good one.

use crate::call::{Call, KINDS};

const REFUSALS: [u64; 6] = [1, 2, 17, 4, 11, 9];

/// Every kind of call comes at least so often.
const ENOUGH: usize = 1000;

#[derive(Default)]
pub struct Tally {
    /// Good calls by place in `KINDS` and direction less one.
    done: [[usize; 2]; KINDS.len()],
    /// By place in `REFUSALS`.
    refused: [usize; REFUSALS.len()],
}

impl Tally {
    pub fn count(&mut self, call: &Call, answer: u64) {
        if let Some(place) = REFUSALS.iter().position(|&refusal| refusal == answer) {
            self.refused[place] += 1;
        } else if let Some(kind) = KINDS
            .iter()
            .position(|&kind| kind == (call.cipher, call.key.len()))
        {
            self.done[kind][call.direction as usize - 1] += 1;
        }
    }

    pub fn done(&self) -> usize {
        self.done.iter().flatten().sum()
    }

    pub fn refused(&self) -> usize {
        self.refused.iter().sum()
    }

    /// Says which kind of call came too seldom.
    pub fn check(&self) -> Result<(), String> {
        let counts = self.done.iter().flatten().chain(&self.refused);
        match counts.into_iter().position(|&count| count < ENOUGH) {
            None => Ok(()),
            Some(place) => Err(format!(
                "kind {place} of call came under {ENOUGH} times: done {:?}, refused {:?}",
                self.done, self.refused
            )),
        }
    }
}
