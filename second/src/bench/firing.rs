//! The steps of a recipe's firing, and how long it takes.
//! Follows the page on the bench, 'How long a recipe takes'.

use super::numbers::{nearest, tenths};
use super::words::{CLIMB, DROP, HOLD};
use crate::card::Record;
use std::iter::once;

/// Where the kiln begins, in tenths of a degree.
pub const BEGINNING: u16 = 200;

/// A segment gone through from where the kiln is. `going` has the seconds to the target,
/// or why they can't be said.
#[derive(Clone, Debug, PartialEq, Eq)]
pub struct Step {
    pub record: Record,
    pub from: u16,
    pub to: u16,
    pub going: Result<u64, String>,
}

impl Step {
    fn new((from, record): (u16, Record)) -> Step {
        Step {
            record,
            from,
            to: record.target,
            going: going(from, &record),
        }
    }

    /// The seconds to the target; those that can't be said count as 0.
    pub fn going_seconds(&self) -> u64 {
        *self.going.as_ref().unwrap_or(&0)
    }

    pub fn holding_seconds(&self) -> u64 {
        60 * u64::from(self.record.hold)
    }

    pub fn seconds(&self) -> u64 {
        self.going_seconds() + self.holding_seconds()
    }
}

/// The steps of segments in the order of their numbers: each begins at the target before.
pub fn steps(segments: &[Record]) -> Vec<Step> {
    let targets = segments.iter().map(|record| record.target);
    let froms = once(BEGINNING).chain(targets);
    froms.zip(segments.iter().copied()).map(Step::new).collect()
}

fn going(from: u16, record: &Record) -> Result<u64, String> {
    let Record {
        kind, target, rate, ..
    } = *record;
    let (from_said, to_said) = (tenths(from), tenths(target));
    let causes = [
        (
            kind == CLIMB && target < from,
            format!("climbs from {from_said} to {to_said}"),
        ),
        (
            kind == DROP && target > from,
            format!("drops from {from_said} to {to_said}"),
        ),
        (
            kind == HOLD && target != from,
            format!("holds at {to_said}, and the kiln is at {from_said}"),
        ),
        (rate == 0 && target != from, "has no rate".to_string()),
    ];
    let cause = causes.into_iter().find(|(applies, _)| *applies);
    let way = u64::from(from.max(target) - from.min(target));
    match cause {
        Some((_, said)) => Err(format!("segment {} {said}", record.segment)),
        None if way == 0 => Ok(0),
        None => Ok(nearest(3600 * way, rate.into())),
    }
}

pub fn total(steps: &[Step]) -> u64 {
    steps.iter().map(Step::seconds).sum()
}

/// How long it takes, in words.
pub fn time(steps: &[Step]) -> String {
    let unsaid = steps.iter().find_map(|step| step.going.as_ref().err());
    let minutes = nearest(total(steps), 60);
    match unsaid {
        Some(cause) => format!("how long it takes cannot be said: {cause}"),
        None => format!("{} h {} min from 20 degrees", minutes / 60, minutes % 60),
    }
}
