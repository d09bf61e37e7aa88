//! Numbers as they are read and written, and the nearest whole number.
//! Follows the page on the bench, 'Numbers'.

/// How a field has its number: whole, or in tenths with a decimal place.
#[derive(Clone, Copy, Debug, PartialEq, Eq)]
pub enum Unit {
    Whole,
    Tenths,
}

impl Unit {
    pub fn read(self, field: &[u8]) -> Option<u64> {
        let parts: Vec<&[u8]> = field.split(|&byte| byte == b'.').collect();
        match (self, &parts[..]) {
            (Unit::Whole, [whole]) => digits(whole, 9),
            (Unit::Tenths, [whole]) => Some(10 * digits(whole, 9)?),
            (Unit::Tenths, [whole, tenth]) => Some(10 * digits(whole, 9)? + digits(tenth, 1)?),
            _ => None,
        }
    }

    pub fn written(self, value: u64) -> String {
        match self {
            Unit::Whole => value.to_string(),
            Unit::Tenths => tenths(value),
        }
    }

    pub fn wanted(self) -> &'static str {
        match self {
            Unit::Whole => "whole number of 1 to 9 digits",
            Unit::Tenths => "number of 1 to 9 digits with at most one decimal place",
        }
    }
}

/// The digits of the number, two at least, with a point before the last.
pub fn tenths(value: impl Into<u64>) -> String {
    let mut digits = format!("{:02}", value.into());
    digits.insert(digits.len() - 1, '.');
    digits
}

fn digits(text: &[u8], most: usize) -> Option<u64> {
    let legal = (1..=most).contains(&text.len()) && text.iter().all(u8::is_ascii_digit);
    let text = std::str::from_utf8(text).ok().filter(|_| legal)?;
    text.parse().ok()
}

/// The quotient rounded to the nearest, a half up.
pub fn nearest(dividend: u64, divisor: u64) -> u64 {
    let (whole, rest) = (dividend / divisor, dividend % divisor);
    whole + u64::from(2 * rest >= divisor)
}
