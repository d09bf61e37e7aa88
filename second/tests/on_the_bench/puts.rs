//! A segment found, a record put.
//! Follows the page on the bench, 'card find, card put'.

use super::{lines, made, said, slot, text, BAD_CARD};

fn card() -> Vec<u8> {
    [
        slot(1, 1, 1, 6000, 1500, 0),
        vec![0; 16],
        slot(65_535, 32, 3, 0, 0, 7),
    ]
    .concat()
}

#[test]
fn a_segment_is_found() {
    let files = [("C", &card()[..])];
    let found = "recipe 65535 segment 32: drop to 0.0 degrees at no set rate, hold 7 min\n";
    assert_eq!(text(&["find", "C", "65535", "32"], &files), found);
    assert_eq!(text(&["find", "C", "000065535", "032"], &files), found);
}

#[test]
fn a_segment_that_is_not_there() {
    let files = [("C", &card()[..])];
    for (recipe, segment, not_there) in [
        (
            "7",
            "2",
            "not there: recipe 7 segment 2 is not on the card\n",
        ),
        (
            "0",
            "0",
            "not there: recipe 0 segment 0 is not on the card\n",
        ),
        (
            "65537",
            "1",
            "not there: recipe 65537 segment 1 is not on the card\n",
        ),
        (
            "1",
            "257",
            "not there: recipe 1 segment 257 is not on the card\n",
        ),
        (
            "007",
            "999999999",
            "not there: recipe 7 segment 999999999 is not on the card\n",
        ),
    ] {
        assert_eq!(said(&["find", "C", recipe, segment], &files, 1), not_there);
    }
}

#[test]
fn a_find_that_fails() {
    let files = [("C", &card()[..]), ("B", &[1])];
    let no_recipe = "failed: RECIPE is no whole number of 1 to 9 digits\n";
    let no_segment = "failed: SEGMENT is no whole number of 1 to 9 digits\n";
    for word in ["", "x", "-1", "1.0", " 1", "1234567890"] {
        assert_eq!(said(&["find", "C", word, "1"], &files, 2), no_recipe);
        assert_eq!(said(&["find", "C", word, "x"], &files, 2), no_recipe);
        assert_eq!(said(&["find", "C", "1", word], &files, 2), no_segment);
        assert_eq!(said(&["curve", "C", word], &files, 1), no_recipe);
    }
    assert_eq!(said(&["find", "B", "1", "1"], &files, 2), BAD_CARD);
    assert_eq!(said(&["find", "B", "x", "1"], &files, 2), BAD_CARD);
    assert_eq!(said(&["find", "B", "1", "x"], &files, 2), BAD_CARD);
}

#[track_caller]
fn is_put(before: &[u8], fields: [&str; 6], after: &[Vec<u8>]) {
    let words = [&["put", "C"], &fields[..]].concat();
    assert_eq!(made(&words, &[("C", before)]), after.concat());
}

#[test]
fn a_record_takes_its_place() {
    let [a, _, c] = [0, 1, 2].map(|i| card()[16 * i..16 * (i + 1)].to_vec());
    let new = slot(1, 2, 2, 5, 10, 0);
    let fields = ["1", "2", "hold", "0.5", "1", "0"];
    is_put(&card(), fields, &[a.clone(), new.clone(), c.clone()]);
    is_put(
        &[a.clone(), c.clone()].concat(),
        fields,
        &[a.clone(), c.clone(), new.clone()],
    );
    is_put(&[], fields, &[new]);
    let other = slot(65_535, 32, 1, 13_500, 65_535, 65_535);
    let fields = ["65535", "32", "CLIMB", "1350.0", "6553.5", "65535"];
    is_put(&card(), fields, &[a, vec![0; 16], other]);
    let fields = [" 065535\t", "32 ", " Climb", "01350", "6553.5", "65535"];
    is_put(&c, fields, &[slot(65_535, 32, 1, 13_500, 65_535, 65_535)]);
}

#[test]
fn a_full_card_takes_namesakes_alone() {
    let slots: Vec<_> = (0..256)
        .map(|i| slot(1 + i / 32, 1 + (i % 32) as u8, 2, 200, 0, 1))
        .collect();
    let full = slots.concat();
    let words = ["put", "C", "9", "1", "hold", "20", "0", "1"];
    assert_eq!(
        said(&words, &[("C", &full)], 1),
        "refused 14: 256 records are on the card already; take one out, or begin another card\n"
    );
    let mut after = slots.clone();
    after[255] = slot(8, 32, 3, 1, 0, 0);
    is_put(&full, ["8", "32", "drop", "0.1", "0", "0"], &after);
    let mut longer = slots[..255].to_vec();
    longer.push(slot(9, 1, 2, 200, 0, 1));
    is_put(
        &slots[..255].concat(),
        ["9", "1", "hold", "20", "0", "1"],
        &longer,
    );
}

const FAILED: &str =
    "failed: the record breaks the rules of a card, and the card stands as it was:";

#[test]
fn every_wrong_field_is_named_without_a_line() {
    let files = [("C", &card()[..])];
    assert_eq!(
        said(
            &["put", "C", "0", "33", "4", "1400", "6553.6", "65536"],
            &files,
            1
        ),
        lines(&[
            FAILED,
            "recipe 0 is not from 1 to 65535",
            "segment 33 is not from 1 to 32",
            "kind is none of climb, hold and drop",
            "target 1400.0 is over 1350.0",
            "rate 6553.6 is over 6553.5",
            "hold 65536 is over 65535",
        ])
    );
    assert_eq!(
        said(
            &["put", "C", "\"1\"", "", "climb", ".5", "1.", "1.0"],
            &files,
            1
        ),
        lines(&[
            FAILED,
            "recipe is no whole number of 1 to 9 digits",
            "segment is no whole number of 1 to 9 digits",
            "target is no number of 1 to 9 digits with at most one decimal place",
            "rate is no number of 1 to 9 digits with at most one decimal place",
            "hold is no whole number of 1 to 9 digits",
        ])
    );
}

#[test]
fn a_bad_card_comes_before_a_bad_record() {
    let words = ["put", "C", "0", "1", "hold", "20", "0", "1"];
    assert_eq!(said(&words, &[("C", &[1])], 1), BAD_CARD);
}
