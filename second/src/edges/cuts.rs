//! A power cut at every byte: the stream laid down and taken up there, and what differs.
//! Follows document 02, request 5, its last sentence.

use super::hex;
use crate::cipher::{is_key_length, set_up, Schedule};
use crate::reading::{lay_down, record_of, take_up, RECORD_BYTES};
use crate::refusal::Answer;
use crate::stream::{feed, finish, start, Next, Stream};

const LONGEST_KEY: &[u8; 32] = b"0123456789abcdefghijklmnopqrstuv";
const FIRST: &[u8; 16] = b"the first block.";
const LONGEST: usize = 100;

pub fn cuts() -> String {
    let mut text = String::new();
    for cipher in 1..=4 {
        for key_length in [16, 24, 32] {
            if is_key_length(cipher, key_length) {
                let key = &LONGEST_KEY[..key_length];
                text += &[1, 2]
                    .map(|d| {
                        line(Setting {
                            cipher,
                            key,
                            direction: d,
                        })
                    })
                    .concat();
            }
        }
    }
    text
}

fn message() -> Vec<u8> {
    (0..LONGEST).map(|i| ((7 * i + 3) % 256) as u8).collect()
}

#[derive(Clone, Copy)]
struct Setting {
    cipher: u64,
    key: &'static [u8],
    direction: u64,
}

fn line(setting: Setting) -> String {
    let message = message();
    let fronts = || (0..=LONGEST).map(|length| &message[..length]);
    let [once, once_differ] = tally(fronts().flat_map(|front| one_cut(setting, front)));
    let [often, often_differ] = tally(fronts().map(|front| a_cut_at_every_byte(setting, front)));
    let whole = Run::uncut(setting, &message);
    format!(
        "cipher {}, a key of {} bytes, direction {}: \
         {once} runs with one cut, {once_differ} differ; \
         {often} runs with a cut at every byte, {often_differ} differ; \
         after {LONGEST} bytes the record is {}, the last block written {}\n",
        setting.cipher,
        setting.key.len(),
        setting.direction,
        hex(&record_of(&whole.stream)),
        hex(&whole.joined[whole.joined.len() - 16..]),
    )
}

/// How many runs there are, and how many of them differ.
fn tally(differ: impl Iterator<Item = bool>) -> [usize; 2] {
    differ.fold([0, 0], |[runs, differing], differs| {
        [runs + 1, differing + usize::from(differs)]
    })
}

/// For each place of the message whether the run with a cut there differs.
fn one_cut(setting: Setting, message: &[u8]) -> Vec<bool> {
    let uncut = Run::uncut(setting, message);
    let places = 0..=message.len();
    let cut_at = |place: usize| {
        let mut run = Run::begun(setting);
        run.byte_by_byte(&message[..place]);
        run.cut(setting);
        run.byte_by_byte(&message[place..]);
        run.ended(message.len())
    };
    places.map(|place| cut_at(place).differs(&uncut)).collect()
}

fn a_cut_at_every_byte(setting: Setting, message: &[u8]) -> bool {
    let mut run = Run::begun(setting);
    run.cut(setting);
    for &byte in message {
        run.byte_by_byte(&[byte]);
        run.cut(setting);
    }
    let uncut = Run::uncut(setting, message);
    run.ended(message.len()).differs(&uncut)
}

/// A run so far: its state, the bytes written, and whether every answer was 0.
struct Run {
    stream: Stream,
    joined: Vec<u8>,
    all_done: bool,
}

impl Run {
    fn begun(setting: Setting) -> Run {
        let schedule = set_up_anew(setting);
        let back = start(&schedule, setting.direction, FIRST);
        Run {
            stream: back.stream,
            joined: Vec::new(),
            all_done: back.answer == Answer::Done,
        }
    }

    /// One piece with all the bytes.
    fn uncut(setting: Setting, message: &[u8]) -> Run {
        let mut run = Run::begun(setting);
        run.piece(message);
        run.ended(message.len())
    }

    fn piece(&mut self, piece: &[u8]) {
        let back = feed(&self.stream, piece, &vec![0; piece.len() + 15]);
        self.joined.extend(&back.out[..back.written as usize]);
        self.next(Next {
            answer: back.answer,
            stream: back.stream,
        });
    }

    fn byte_by_byte(&mut self, bytes: &[u8]) {
        bytes.chunks(1).for_each(|byte| self.piece(byte));
    }

    /// The power goes: nothing stays but the record.
    fn cut(&mut self, setting: Setting) {
        let back = lay_down(&self.stream, &[0; RECORD_BYTES]);
        self.all_done &= back.answer == Answer::Done;
        let schedule = set_up_anew(setting);
        self.next(take_up(&schedule, &back.out));
    }

    /// Finished where no byte is held.
    fn ended(mut self, length: usize) -> Run {
        if length % 16 == 0 {
            let next = finish(&self.stream);
            self.next(next);
        }
        self
    }

    fn next(&mut self, next: Next) {
        self.all_done &= next.answer == Answer::Done;
        self.stream = next.stream;
    }

    fn differs(&self, uncut: &Run) -> bool {
        let same = self.joined == uncut.joined && self.stream == uncut.stream;
        !self.all_done || !same
    }
}

fn set_up_anew(setting: Setting) -> Schedule {
    set_up(setting.cipher, setting.key).schedule
}
