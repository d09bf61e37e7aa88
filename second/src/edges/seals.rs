//! The edge cases of seals.
//! Follows document 02, request 3.

use super::{hex, BEFORE};
use crate::cipher::set_up;
use crate::seal::{check, feed, start, write, Next, Seal};

const KEY: &[u8; 16] = b"0123456789abcdef";
const MESSAGE: &[u8; 33] = b"the message of thirty-three bytes";

pub fn seals() -> String {
    (1..=4).map(of_cipher).collect()
}

fn of_cipher(cipher: u64) -> String {
    let refused = set_up(cipher, &KEY[..15]).schedule;
    let schedule = set_up(cipher, KEY).schedule;
    let fresh = Calls::of(start(&schedule).seal);
    let first_lines = [
        Calls::new()
            .next("  a start under a refused schedule", start(&refused))
            .ends()
            .piece("  then a piece of 1", &MESSAGE[..1]),
        Calls::new().next("  a start", start(&schedule)).ends(),
    ];
    [
        format!("cipher {cipher}\n"),
        first_lines.map(|calls| calls.text).concat(),
        [0, 1, 15, 16, 17, 31, 32, 33]
            .map(|n| one_or_many_pieces(&fresh, n))
            .concat(),
        empty_piece(&fresh),
        writing(&fresh),
        checking(&fresh),
        the_limit(&fresh),
    ]
    .concat()
}

/// A seal while its calls are written down: its state, and the text so far.
#[derive(Clone)]
struct Calls {
    seal: Seal,
    text: String,
}

impl Calls {
    fn of(seal: Seal) -> Calls {
        let text = String::new();
        Calls { seal, text }
    }

    fn new() -> Calls {
        Calls::of(Seal::ZERO)
    }

    fn next(mut self, name: &str, next: Next) -> Calls {
        self.text += &format!("{name}: answer {}", next.answer.number());
        self.seal = next.seal;
        self
    }

    fn ends(mut self) -> Calls {
        self.text += "\n";
        self
    }

    fn holds(mut self) -> Calls {
        self.text += &format!(", holds {}", self.seal.held_number());
        self
    }

    fn feed(self, name: &str, piece: &[u8]) -> Calls {
        let next = feed(&self.seal, piece);
        self.next(name, next).holds()
    }

    fn piece(self, name: &str, piece: &[u8]) -> Calls {
        self.feed(name, piece).ends()
    }

    /// A piece of which nothing is said.
    fn fed(mut self, piece: &[u8]) -> Calls {
        self.seal = feed(&self.seal, piece).seal;
        self
    }

    fn write(mut self, name: &str, room: usize) -> Calls {
        let back = write(&self.seal, &vec![BEFORE; room]);
        let (answer, out) = (back.answer.number(), hex(&back.out));
        self.text += &format!("{name}: answer {answer}, output {out}");
        self.seal = back.seal;
        self.ends()
    }

    fn check(mut self, name: &str, given: &[u8]) -> Calls {
        let back = check(&self.seal, given);
        let yes_or_no = if back.yes { "yes" } else { "no" };
        self.text += &format!("{name}: answer {}, {yes_or_no}", back.answer.number());
        self.seal = back.seal;
        self.ends()
    }
}

/// The answer of many pieces is the last one's, or that of a start if there is none.
fn one_or_many_pieces(fresh: &Calls, n: usize) -> String {
    let message = &MESSAGE[..n];
    let one = feed(&fresh.seal, message);
    let begun = start(&fresh.seal.schedule);
    let many = message
        .chunks(1)
        .fold(begun, |next, piece| feed(&next.seal, piece));
    let line = |name: &str, next| {
        let calls = fresh.clone().next(&format!("  {n} bytes in {name}"), next);
        calls.holds().write(", then the seal", 16).text
    };
    line("one piece", one) + &line(&format!("{n} pieces of 1"), many)
}

fn empty_piece(fresh: &Calls) -> String {
    let calls = fresh.clone().fed(&MESSAGE[..16]);
    calls
        .feed("  16 bytes, then an empty piece", &[])
        .write(", then the seal", 16)
        .text
}

fn writing(fresh: &Calls) -> String {
    let calls = fresh.clone().fed(MESSAGE);
    let seal = calls.seal.sealed();
    calls
        .write("  33 bytes, the seal into 15 of room", 15)
        .write("  then into 17 of room", 17)
        .write("  then once more", 16)
        .piece("  then a piece of 1", &MESSAGE[..1])
        .check("  then a check of the seal", &seal)
        .text
}

fn checking(fresh: &Calls) -> String {
    let calls = fresh.clone().fed(MESSAGE);
    let again = || calls.clone();
    let seal = calls.seal.sealed();
    let longer = [&seal[..], &[BEFORE]].concat();
    let mut changed = seal;
    changed[15] ^= 1;
    let of_length = |n: usize| {
        let name = format!("  33 bytes, a check of {n} bytes");
        again().check(&name, &longer[..n])
    };
    let lines = [
        of_length(0),
        of_length(15),
        of_length(16).check("  then once more", &seal),
        of_length(17),
        again()
            .check(
                "  33 bytes, a check of 16 bytes with the last bit changed",
                &changed,
            )
            .check("  then the right 16 bytes", &seal),
    ];
    lines.map(|calls| calls.text).concat()
}

fn the_limit(fresh: &Calls) -> String {
    let million = vec![3; Seal::LIMIT as usize];
    let calls = fresh.clone();
    calls
        .piece("  1048576 bytes at once", &million)
        .piece("  then 1 more", &[3])
        .piece("  then an empty piece", &[])
        .write("  then the seal", 16)
        .text
}
