//! The six fields of a record and their rules.
//! Follows the page on the bench, 'The table', 'Wrong', and 'card show'.

use super::numbers::Unit;
use crate::card::Record;

pub const KINDS: [&str; 3] = ["climb", "hold", "drop"];

/// A number with a name and a range.
#[derive(Clone, Copy, Debug, PartialEq, Eq)]
pub struct Rule {
    pub name: &'static str,
    pub unit: Unit,
    pub least: u64,
    pub most: u64,
}

const fn rule(name: &'static str, unit: Unit, least: u64, most: u64) -> Rule {
    Rule {
        name,
        unit,
        least,
        most,
    }
}

pub const RECIPE: Rule = rule("recipe", Unit::Whole, 1, 65_535);
pub const SEGMENT: Rule = rule("segment", Unit::Whole, 1, 32);
pub const TARGET: Rule = rule("target", Unit::Tenths, 0, 13_500);
pub const RATE: Rule = rule("rate", Unit::Tenths, 0, 65_535);
pub const HOLD: Rule = rule("hold", Unit::Whole, 0, 65_535);

impl Rule {
    /// What is said of a number that is out of the range.
    pub fn broken(&self, value: u64) -> Option<String> {
        let (name, value_said) = (self.name, self.unit.written(value));
        let most = self.unit.written(self.most);
        match value {
            _ if (self.least..=self.most).contains(&value) => None,
            _ if self.least == 0 => Some(format!("{name} {value_said} is over {most}")),
            _ => Some(format!(
                "{name} {value_said} is not from {} to {most}",
                self.least
            )),
        }
    }

    pub fn read(&self, field: &[u8]) -> Result<u64, String> {
        let value = self.unit.read(field);
        let value = value.ok_or_else(|| format!("{} is no {}", self.name, self.unit.wanted()))?;
        self.broken(value).map_or(Ok(value), Err)
    }
}

fn kind(field: &[u8]) -> Result<u64, String> {
    let mut kinds = KINDS.iter().zip(1..);
    let found = kinds.find(|(word, _)| word.as_bytes().eq_ignore_ascii_case(field));
    let (_, number) = found.ok_or("kind is none of climb, hold and drop")?;
    Ok(number)
}

/// The record of six fields, or what is said of each wrong one.
pub fn record(fields: [&[u8]; 6]) -> Result<Record, Vec<String>> {
    let [r, s, k, t, a, h] = fields;
    let read = [
        RECIPE.read(r),
        SEGMENT.read(s),
        kind(k),
        TARGET.read(t),
        RATE.read(a),
        HOLD.read(h),
    ];
    let wrong: Vec<String> = read.iter().flat_map(|field| field.clone().err()).collect();
    match read.map(|field| field.unwrap_or_default()) {
        _ if !wrong.is_empty() => Err(wrong),
        [recipe, segment, kind, target, rate, hold] => Ok(Record {
            recipe: recipe as u16,
            segment: segment as u8,
            kind: kind as u8,
            target: target as u16,
            rate: rate as u16,
            hold: hold as u16,
        }),
    }
}

/// The field without the spaces and tabs around it.
pub fn bare(field: &[u8]) -> &[u8] {
    let counts = |byte: &u8| *byte != b' ' && *byte != b'\t';
    let first = field.iter().position(counts).unwrap_or(field.len());
    let behind = field
        .iter()
        .rposition(counts)
        .map_or(first, |last| last + 1);
    &field[first..behind]
}
