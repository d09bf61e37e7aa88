//! Power cuts across a process's end: each message is read by several runs of a program,
//! and nothing but the record, the key and the place in the message passes between them.
//! Follows document 02, request 5, its last sentence, and the page on replay.

mod message;
mod run;

use crate::random::Random;
use message::Message;

/// So many cuts at least.
pub const CUTS: usize = 320;

/// Interprets a script: the answers, or why there are none.
pub type Program<'a> = dyn FnMut(&[u8]) -> Result<Vec<u8>, String> + 'a;

/// The line that says how many cuts were made, or a sentence on the first difference.
pub fn cuts(program: &mut Program) -> Result<String, String> {
    let random = &mut Random::seeded(7);
    let (mut made, mut messages) = (0, 0);
    while made < CUTS {
        let message = Message::any(random);
        let places = places(random, message.length());
        made += places.len();
        messages += 1;
        message
            .read(random, &places, program)
            .map_err(|what| format!("In message {messages} ({}) {what}.", message.in_words()))?;
    }
    Ok(format!(
        "{made} cuts across a process's end, in {messages} messages: \
         the joined bytes are those of the CBC\n"
    ))
}

/// Places of the message in their order, more than one for some messages.
fn places(random: &mut Random, length: usize) -> Vec<usize> {
    let number = random.one_of(&[1, 1, 1, 2, 3, 5]);
    let mut places: Vec<usize> = (0..number).map(|_| random.below(length + 1)).collect();
    places.sort_unstable();
    places
}
