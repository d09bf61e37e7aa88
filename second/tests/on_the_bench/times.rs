//! A segment in words, and how long a recipe takes.
//! Follows the page on the bench, 'A segment in words' and 'How long a recipe takes'.

use super::{slot, text};

const CLIMB: u8 = 1;
const HOLD: u8 = 2;
const DROP: u8 = 3;

/// Whether a segment of the kind with this target, rate and hold is said so.
fn said_of(kind: u8) -> impl Fn(u16, u16, u16, &str) {
    move |target, rate, hold, words| {
        let card = slot(1, 2, kind, target, rate, hold);
        let found = text(&["find", "C", "1", "2"], &[("C", &card)]);
        assert_eq!(found, format!("recipe 1 segment 2: {words}\n"));
    }
}

#[test]
fn segments_in_words() {
    let [climbs, drops, holds] = [CLIMB, DROP, HOLD].map(said_of);
    climbs(6000, 1500, 0, "climb to 600.0 degrees at 150.0 an hour");
    climbs(
        12_700,
        3000,
        12,
        "climb to 1270.0 degrees at 300.0 an hour, hold 12 min",
    );
    climbs(0, 0, 0, "climb to 0.0 degrees at no set rate");
    drops(
        10_950,
        0,
        180,
        "drop to 1095.0 degrees at no set rate, hold 180 min",
    );
    drops(5, 1, 0, "drop to 0.5 degrees at 0.1 an hour");
    holds(10_950, 0, 180, "hold at 1095.0 degrees for 180 min");
    holds(
        10_950,
        600,
        180,
        "hold at 1095.0 degrees for 180 min, rate 60.0 an hour",
    );
    holds(
        13_500,
        65_535,
        0,
        "hold at 1350.0 degrees for 0 min, rate 6553.5 an hour",
    );
}

/// The time of recipe 1 with these segments of kind, target, rate and hold from 1 on.
#[track_caller]
fn takes(segments: &[(u8, u16, u16, u16)], time: &str) {
    let slots = segments.iter().zip(1..);
    let card: Vec<u8> = slots
        .flat_map(|(&(kind, target, rate, hold), n)| slot(1, n, kind, target, rate, hold))
        .collect();
    let shown = text(&["show", "C"], &[("C", &card)]);
    assert_eq!(shown.lines().next(), Some(&format!("recipe 1: {time}")[..]));
}

#[test]
fn the_seconds_together_in_hours_and_minutes() {
    takes(&[(CLIMB, 6000, 1500, 0)], "3 h 52 min from 20 degrees");
    takes(
        &[(CLIMB, 6000, 1500, 0), (CLIMB, 12_700, 3000, 12)],
        "6 h 18 min from 20 degrees",
    );
    takes(
        &[
            (CLIMB, 1200, 1000, 0),
            (DROP, 200, 500, 0),
            (HOLD, 200, 7, 5),
        ],
        "3 h 5 min from 20 degrees",
    );
    takes(&[(HOLD, 200, 0, 30)], "0 h 30 min from 20 degrees");
    takes(&[(HOLD, 200, 0, 0)], "0 h 0 min from 20 degrees");
    takes(&[(HOLD, 200, 0, 65_535)], "1092 h 15 min from 20 degrees");
    takes(
        &[(CLIMB, 13_500, 1, 65_535)],
        "14392 h 15 min from 20 degrees",
    );
}

#[test]
fn half_a_second_and_half_a_minute_are_rounded_up() {
    takes(&[(CLIMB, 229, 3600, 0)], "0 h 0 min from 20 degrees");
    takes(&[(CLIMB, 230, 3600, 0)], "0 h 1 min from 20 degrees");
    takes(&[(CLIMB, 289, 3600, 0)], "0 h 1 min from 20 degrees");
    takes(&[(CLIMB, 290, 3600, 0)], "0 h 2 min from 20 degrees");
    takes(
        &[(CLIMB, 229, 3600, 0), (CLIMB, 230, 7200, 0)],
        "0 h 1 min from 20 degrees",
    );
    takes(
        &[(CLIMB, 229, 3600, 0), (CLIMB, 230, 7201, 0)],
        "0 h 0 min from 20 degrees",
    );
    takes(
        &[
            (CLIMB, 228, 3600, 0),
            (CLIMB, 229, 7200, 0),
            (DROP, 228, 7200, 0),
        ],
        "0 h 1 min from 20 degrees",
    );
}

#[test]
fn a_kiln_that_is_there_already_takes_no_time_at_any_rate() {
    for kind in [CLIMB, HOLD, DROP] {
        takes(&[(kind, 200, 0, 2)], "0 h 2 min from 20 degrees");
        takes(&[(kind, 200, 500, 2)], "0 h 2 min from 20 degrees");
    }
}

#[track_caller]
fn cannot_be_said(segments: &[(u8, u16, u16, u16)], cause: &str) {
    takes(
        segments,
        &format!("how long it takes cannot be said: {cause}"),
    );
}

#[test]
fn the_causes_for_which_a_time_cannot_be_said() {
    let up = (CLIMB, 6000, 1500, 0);
    let higher = (CLIMB, 12_700, 3000, 12);
    for rate in [0, 100] {
        let climb = (CLIMB, 10_950, rate, 1);
        cannot_be_said(
            &[up, higher, climb],
            "segment 3 climbs from 1270.0 to 1095.0",
        );
        let drop = (DROP, 12_700, rate, 1);
        cannot_be_said(&[up, up, drop], "segment 3 drops from 600.0 to 1270.0");
        let hold = (HOLD, 10_950, rate, 1);
        let elsewhere = "segment 3 holds at 1095.0, and the kiln is at 1270.0";
        cannot_be_said(&[up, higher, hold], elsewhere);
        let hold = (HOLD, 12_700, rate, 1);
        let elsewhere = "segment 3 holds at 1270.0, and the kiln is at 600.0";
        cannot_be_said(&[up, up, hold], elsewhere);
    }
    cannot_be_said(&[up, higher, (DROP, 10_950, 0, 1)], "segment 3 has no rate");
    cannot_be_said(&[up, (CLIMB, 12_700, 0, 1)], "segment 2 has no rate");
}

#[test]
fn the_first_segment_whose_time_cannot_be_said_is_named() {
    let up = (CLIMB, 6000, 1500, 0);
    let hold = (HOLD, 0, 9, 1);
    cannot_be_said(
        &[up, (DROP, 6100, 9, 1), hold],
        "segment 2 drops from 600.0 to 610.0",
    );
    cannot_be_said(
        &[(CLIMB, 100, 0, 1), hold, up],
        "segment 1 climbs from 20.0 to 10.0",
    );
}
