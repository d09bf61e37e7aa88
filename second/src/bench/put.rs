//! A segment found, a record put.
//! Follows the page on the bench, 'card find, card put'.

use super::fields::{bare, record};
use super::words::words;
use crate::card::{find, put, Record, EMPTY};
use crate::refusal::Answer;

/// The segment of a good card in words, or that it's not there.
pub fn found(card: &[u8], recipe: u64, segment: u64) -> Result<String, String> {
    match find(card, recipe, segment) {
        [] => Err(format!(
            "not there: recipe {recipe} segment {segment} is not on the card"
        )),
        slot => Ok(format!(
            "recipe {recipe} segment {segment}: {}\n",
            words(&Record::of(slot))
        )),
    }
}

/// The good card with the record of these fields, else the one lengthened by a slot; with
/// 257 it's bad and takes none.
pub fn with_record(card: &[u8], fields: [&str; 6]) -> Result<Vec<u8>, String> {
    let record = record(fields.map(|field| bare(field.as_bytes()))).map_err(|wrong| {
        let sentence =
            "failed: the record breaks the rules of a card, and the card stands as it was:";
        [sentence.to_string(), wrong.join("\n")].join("\n")
    })?;
    let longer = [card, &EMPTY].concat();
    let puts = [card, &longer].map(|card| put(card, &record.bytes()));
    let done = puts.into_iter().find(|put| put.answer == Answer::Done);
    let refused =
        "refused 14: 256 records are on the card already; take one out, or begin another card";
    done.map(|put| put.card).ok_or_else(|| refused.to_string())
}
