//! Edge cases in words, for a person to read: each with what the calls answer.

mod cards;
mod ciphers;
mod compare;
mod cuts;
mod records;
mod seals;

pub use cards::{cards, full, standard};
pub use ciphers::ciphers;
pub use compare::compare;
pub use cuts::cuts;
pub use records::records;
pub use seals::seals;

/// What every output holds before the call.
const BEFORE: u8 = 0xEE;

fn hex(bytes: &[u8]) -> String {
    bytes.iter().map(|byte| format!("{byte:02x}")).collect()
}
