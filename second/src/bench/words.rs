//! A segment in words.
//! Follows the page on the bench, 'A segment in words'.

use super::fields::KINDS;
use super::numbers::tenths;
use crate::card::Record;

pub const CLIMB: u8 = 1;
pub const HOLD: u8 = 2;
pub const DROP: u8 = 3;

pub fn kind(record: &Record) -> &'static str {
    KINDS[usize::from(record.kind) - 1]
}

/// The segment of a good card in words.
pub fn words(record: &Record) -> String {
    let (kind, target, minutes) = (kind(record), tenths(record.target), record.hold);
    let rate = format!("{} an hour", tenths(record.rate));
    let (at_rate, rate_said) = match record.rate {
        0 => ("at no set rate".to_string(), String::new()),
        _ => (format!("at {rate}"), format!(", rate {rate}")),
    };
    let hold_said = match minutes {
        0 => String::new(),
        _ => format!(", hold {minutes} min"),
    };
    match record.kind {
        HOLD => format!("hold at {target} degrees for {minutes} min{rate_said}"),
        _ => format!("{kind} to {target} degrees {at_rate}{hold_said}"),
    }
}
