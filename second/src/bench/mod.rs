//! The bench: its commands, what they write, what they say and their status.
//! Follows the page on the bench, 'What is said, and the status'.

mod compare;
mod curve;
mod fields;
mod firing;
mod line;
mod numbers;
mod put;
mod sent;
mod show;
mod table;
mod words;

use crate::card::{good, Record, EMPTY, SLOT};
use crate::cipher::Schedule;
use numbers::Unit;

pub const USAGE: &str = "second bench from TABLE
       second bench table CARD
       second bench show CARD
       second bench find CARD RECIPE SEGMENT
       second bench put CARD RECIPE SEGMENT KIND TARGET RATE HOLD
       second bench curve CARD RECIPE
       second bench compare FIRST SECOND
       second bench seal NUMBER KEYHEX IN
       second bench check NUMBER KEYHEX SEALHEX IN
       second bench send NUMBER KEY1HEX KEY2HEX FIRSTHEX CARD
       second bench receive NUMBER KEY1HEX KEY2HEX IN";

const BAD_CARD: &str =
    "refused 12: the card is bad; ./recipe card show names every rule that it breaks";

/// What a command gives back: what goes to standard output, what to standard error, and
/// its status.
#[derive(Clone, Debug, PartialEq, Eq)]
pub struct Outcome {
    pub out: Vec<u8>,
    pub said: String,
    pub status: u8,
}

/// Why a command makes nothing.
enum Why {
    Said(String),
    NotThere(String),
    CalledWrongly,
}

impl From<String> for Why {
    fn from(sentence: String) -> Why {
        Why::Said(sentence)
    }
}

/// The bytes of a file, or why it can't be read.
pub type Files<'a> = &'a dyn Fn(&str) -> Result<Vec<u8>, String>;

pub fn bench(words: &[&str], files: Files) -> Outcome {
    let refused = match words.first() {
        Some(&"find" | &"compare" | &"check") => 2,
        _ => 1,
    };
    let (said, status) = match answered(words, files) {
        Ok(outcome) => return outcome,
        Err(Why::Said(sentence)) => (sentence, refused),
        Err(Why::NotThere(sentence)) => (sentence, 1),
        Err(Why::CalledWrongly) => (format!("usage: {USAGE}"), 2),
    };
    Outcome {
        out: vec![],
        said: said + "\n",
        status,
    }
}

fn made(out: impl Into<Vec<u8>>) -> Outcome {
    let (out, said) = (out.into(), String::new());
    Outcome {
        out,
        said,
        status: 0,
    }
}

fn answered(words: &[&str], files: Files) -> Result<Outcome, Why> {
    match *words {
        ["from", table] => from(&files(table)?),
        ["table", card] => Ok(made(table::written(&good_card(&files(card)?)?))),
        ["show", card] => Ok(show(&files(card)?)),
        ["find", card, recipe, segment] => find(&files(card)?, recipe, segment),
        ["put", card, r, s, k, t, a, h] => {
            let card = good_card(&files(card)?)?;
            Ok(made(put::with_record(&card, [r, s, k, t, a, h])?))
        }
        ["curve", card, recipe] => curve(&files(card)?, recipe),
        ["compare", first, second] => compare(&files(first)?, &files(second)?),
        ["seal", cipher, key, file] => seal(&scheduled(cipher, key)?, &files(file)?),
        ["check", cipher, key, seal, file] => {
            let (seal, key) = (hex(seal)?, scheduled(cipher, key)?);
            check(&key, &seal, &files(file)?)
        }
        ["send", cipher, chain, seal, first, card] => {
            let (keys, first) = ([hex(chain)?, hex(seal)?], hex(first)?);
            let keys = [&keys[0][..], &keys[1][..]];
            let card = files(card)?;
            Ok(made(sent::send(number(cipher)?, keys, &first, &card)?))
        }
        ["receive", cipher, chain, seal, file] => {
            let keys = [hex(chain)?, hex(seal)?];
            let keys = [&keys[0][..], &keys[1][..]];
            Ok(made(sent::receive(number(cipher)?, keys, &files(file)?)?))
        }
        _ => Err(Why::CalledWrongly),
    }
}

fn from(table: &[u8]) -> Result<Outcome, Why> {
    if table.len() > table::MOST {
        return Err("failed: the table has more than 65,535 bytes"
            .to_string()
            .into());
    }
    let card = table::read(table).map_err(|wrong| {
        let sentence = "failed: the table breaks the rules of a card, and none is made:";
        [sentence.to_string(), wrong.join("\n")].join("\n")
    });
    Ok(made(card?))
}

fn show(card: &[u8]) -> Outcome {
    match good(card) {
        true => made(show::good(card)),
        false => Outcome {
            out: show::bad(card).into_bytes(),
            said: format!("{BAD_CARD}\n"),
            status: 1,
        },
    }
}

fn find(card: &[u8], recipe: &str, segment: &str) -> Result<Outcome, Why> {
    let card = good_card(card)?;
    let recipe = whole("RECIPE", recipe)?;
    let segment = whole("SEGMENT", segment)?;
    let found = put::found(&card, recipe, segment).map_err(Why::NotThere)?;
    Ok(made(found))
}

fn curve(card: &[u8], recipe: &str) -> Result<Outcome, Why> {
    let card = good_card(card)?;
    let recipe = whole("RECIPE", recipe)?;
    match &show::segments(&card, recipe)[..] {
        [] => Err(format!("failed: recipe {recipe} is not on the card").into()),
        segments => Ok(made(curve::curve(recipe, &firing::steps(segments)))),
    }
}

fn compare(first: &[u8], second: &[u8]) -> Result<Outcome, Why> {
    for (card, named) in [(first, "the first card"), (second, "the second card")] {
        if !good(card) {
            return Err(BAD_CARD.replace("the card", named).into());
        }
    }
    let differences = compare::differences(first, second);
    let status = u8::from(!differences.is_empty());
    Ok(Outcome {
        status,
        ..made(differences)
    })
}

fn seal(key: &Schedule, message: &[u8]) -> Result<Outcome, Why> {
    let seal = sent::sealed(key, message)?;
    Ok(made(sent::hex(&seal) + "\n"))
}

fn check(key: &Schedule, given: &[u8], message: &[u8]) -> Result<Outcome, Why> {
    let (said, status) = match sent::is_seal(key, message, given)? {
        true => ("yes: this is the seal of the file\n", 0),
        false => (
            "no: this is not the seal of the file; the file, the key or the cipher is another one\n",
            1,
        ),
    };
    Ok(Outcome {
        status,
        ..made(said)
    })
}

fn good_card(card: &[u8]) -> Result<Vec<u8>, Why> {
    match good(card) {
        true => Ok(card.to_vec()),
        false => Err(BAD_CARD.to_string().into()),
    }
}

fn whole(name: &str, word: &str) -> Result<u64, Why> {
    let wanted = || format!("failed: {name} is no {}", Unit::Whole.wanted());
    Ok(Unit::Whole.read(word.as_bytes()).ok_or_else(wanted)?)
}

fn number(word: &str) -> Result<u64, Why> {
    word.parse().map_err(|_| Why::CalledWrongly)
}

fn scheduled(cipher: &str, key: &str) -> Result<Schedule, Why> {
    Ok(sent::schedule(number(cipher)?, &hex(key)?)?)
}

fn hex(word: &str) -> Result<Vec<u8>, Why> {
    sent::bytes_of(word).ok_or(Why::CalledWrongly)
}

/// The filled slots of a good card, in its order.
fn records(card: &[u8]) -> impl Iterator<Item = Record> + '_ {
    let filled = card.chunks(SLOT).filter(|slot| *slot != EMPTY);
    filled.map(Record::of)
}

fn pair(slot: &[u8]) -> (u16, u8) {
    let record = Record::of(slot);
    (record.recipe, record.segment)
}
