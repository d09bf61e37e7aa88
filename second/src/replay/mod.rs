//! Replay: the script format, its interpreter, and the script that this program
//! writes with the answers to it.
//! Follows the page on replay: one call after the other, everything that comes back.

mod blanks;
mod blocks;
pub mod call;
mod cards;
pub mod ciphers;
mod compares;
mod designers;
mod entries;
pub mod faults;
pub mod interpreter;
pub mod reader;
pub mod record;
mod records;
pub mod script;
mod seals;
mod states;
mod streams;
pub mod vectors;

pub use interpreter::run;

/// How much of the script is wanted: behind the blocks part stand streams, then cards,
/// then request 2's, then seals, then records, then compares, then blanks.
#[derive(Clone, Copy, Debug, PartialEq, Eq)]
pub enum Extent {
    Blocks,
    Whole,
}

/// The script of today: the same bytes each time, the blocks part in front.
pub fn script(extent: Extent) -> Vec<u8> {
    let mut script = script::Script::default();
    blocks::write(&mut script);
    if extent == Extent::Whole {
        streams::write(&mut script);
        cards::write(&mut script);
        designers::write(&mut script);
        seals::write(&mut script);
        records::write(&mut script);
        compares::write(&mut script);
        blanks::write(&mut script);
    }
    script.bytes
}
