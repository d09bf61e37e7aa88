//! The table of a card, read and written.
//! Follows the page on the bench, 'The table'.

use super::fields::record;
use super::line::fields;
use super::numbers::tenths;
use super::records;
use super::words::kind;
use crate::bytes::Block;
use crate::card::{Record, SLOTS};
use std::collections::BTreeMap;

/// The most bytes that a table has.
pub const MOST: usize = 65_535;

const HEADER: &str = "recipe,segment,kind,target,rate,hold";
const BYTE_ORDER_MARK: [u8; 3] = [0xEF, 0xBB, 0xBF];

/// What has been made of the lines so far; `lines` has where each recipe and segment stands.
#[derive(Default)]
struct Made {
    slots: Vec<Block>,
    lines: BTreeMap<(u16, u8), usize>,
    wrong: Vec<String>,
}

/// The card's bytes, or what is said of the wrong lines.
pub fn read(table: &[u8]) -> Result<Vec<u8>, Vec<String>> {
    let table = table.strip_prefix(&BYTE_ORDER_MARK).unwrap_or(table);
    let ended = table.split(|&byte| byte == b'\n');
    let mut lines = ended.map(|line| line.strip_suffix(b"\r").unwrap_or(line));
    if !lines.next().map_or(false, is_header) {
        return Err(vec![format!("line 1: the header is not {HEADER}")]);
    }
    let mut made = Made::default();
    for (line, number) in lines.zip(2..) {
        let said = made.put(line, number);
        let said = said
            .into_iter()
            .map(|said| format!("line {number}: {said}"));
        made.wrong.extend(said);
    }
    match made.wrong.is_empty() {
        true => Ok(made.slots.concat()),
        false => Err(made.wrong),
    }
}

fn is_header(line: &[u8]) -> bool {
    let found = fields(line).unwrap_or_default();
    let wanted = HEADER.split(',').map(|word| word.as_bytes().to_vec());
    found
        .iter()
        .map(|word| word.to_ascii_lowercase())
        .eq(wanted)
}

impl Made {
    /// Puts the line's record, or says why not.
    fn put(&mut self, line: &[u8], number: usize) -> Vec<String> {
        let fields = match fields(line) {
            None => return vec!["a quote is out of place".to_string()],
            Some(fields) => fields,
        };
        if fields.iter().all(Vec::is_empty) {
            return vec![];
        }
        let fields: Vec<&[u8]> = fields.iter().map(Vec::as_slice).collect();
        match <[&[u8]; 6]>::try_from(&fields[..]).map(record) {
            Err(_) => vec![format!("{} fields stand where 6 are wanted", fields.len())],
            Ok(Err(wrong)) => wrong,
            Ok(Ok(record)) => self.put_record(record, number).into_iter().collect(),
        }
    }

    fn put_record(&mut self, record: Record, number: usize) -> Option<String> {
        let pair @ (recipe, segment) = (record.recipe, record.segment);
        if let Some(line) = self.lines.get(&pair) {
            return Some(format!(
                "recipe {recipe} segment {segment} stands on line {line} already"
            ));
        }
        if self.slots.len() == SLOTS {
            return Some(format!(
                "{SLOTS} records are on the card already, and no more have room"
            ));
        }
        self.lines.insert(pair, number);
        self.slots.push(record.bytes());
        None
    }
}

/// The table of a good card.
pub fn written(card: &[u8]) -> String {
    let lines = records(card).map(|record| line(&record));
    std::iter::once(format!("{HEADER}\n"))
        .chain(lines)
        .collect()
}

fn line(record: &Record) -> String {
    let fields = [
        record.recipe.to_string(),
        record.segment.to_string(),
        kind(record).to_string(),
        tenths(record.target),
        tenths(record.rate),
        record.hold.to_string(),
    ];
    fields.join(",") + "\n"
}
