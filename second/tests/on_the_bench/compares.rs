//! Two cards compared, in words.
//! Follows the page on the bench, 'compare'.

use super::any::any_card;
use super::{lines, run, said, slot, text};
use second::random::Random;

#[track_caller]
fn differ(first: &[Vec<u8>], second: &[Vec<u8>], differences: &[&str]) {
    let outcome = run(
        &["compare", "A", "B"],
        &[("A", &first.concat()), ("B", &second.concat())],
    );
    assert_eq!(String::from_utf8(outcome.out).unwrap(), lines(differences));
    assert_eq!((&outcome.said[..], outcome.status), ("", 1));
}

#[test]
fn taken_out_changed_and_put_in() {
    let first = [slot(1, 2, 1, 1000, 600, 10), slot(1, 1, 1, 1000, 600, 10)];
    let second = [
        slot(2, 1, 2, 6000, 0, 30),
        vec![0; 16],
        slot(1, 2, 1, 1100, 600, 12),
    ];
    differ(
        &first,
        &second,
        &[
            "recipe 1 segment 1: taken out: climb to 100.0 degrees at 60.0 an hour, hold 10 min",
            "recipe 1 segment 2: changed: target was 100.0 and is 110.0, hold was 10 and is 12",
            "recipe 2 segment 1: put in: hold at 600.0 degrees for 30 min",
        ],
    );
}

#[test]
fn every_field_that_changed() {
    let was = slot(300, 32, 1, 0, 0, 0);
    for (is, changes) in [
        (slot(300, 32, 2, 0, 0, 0), "kind was climb and is hold"),
        (slot(300, 32, 1, 5, 0, 0), "target was 0.0 and is 0.5"),
        (slot(300, 32, 1, 0, 65_535, 0), "rate was 0.0 and is 6553.5"),
        (slot(300, 32, 1, 0, 0, 65_535), "hold was 0 and is 65535"),
        (
            slot(300, 32, 3, 13_500, 10, 1),
            "kind was climb and is drop, target was 0.0 and is 1350.0, \
             rate was 0.0 and is 1.0, hold was 0 and is 1",
        ),
    ] {
        let line = format!("recipe 300 segment 32: changed: {changes}");
        differ(std::slice::from_ref(&was), &[is], &[&line]);
    }
}

#[test]
fn of_no_differences_nothing_is_written() {
    let [a, b] = [slot(1, 1, 1, 1000, 600, 10), slot(1, 2, 1, 1000, 600, 10)];
    let first = [&a[..], &b].concat();
    let second = [&b[..], &[0; 16], &a].concat();
    let words = ["compare", "A", "B"];
    assert_eq!(text(&words, &[("A", &first), ("B", &second)]), "");
    assert_eq!(text(&words, &[("A", &[]), ("B", &[0; 4096])]), "");
}

#[test]
fn a_bad_card_is_named() {
    let words = ["compare", "A", "B"];
    let first =
        "refused 12: the first card is bad; ./recipe card show names every rule that it breaks\n";
    let second =
        "refused 12: the second card is bad; ./recipe card show names every rule that it breaks\n";
    assert_eq!(said(&words, &[("A", &[1]), ("B", &[])], 2), first);
    assert_eq!(said(&words, &[("A", &[]), ("B", &[0; 4112])], 2), second);
    assert_eq!(said(&words, &[("A", &[1]), ("B", &[1])], 2), first);
}

/// The put-in lines against nothing are the segments of `show` with their recipe.
#[test]
fn against_a_card_of_no_bytes_every_segment_is_put_in() {
    let mut random = Random::seeded(73);
    for _ in 0..100 {
        let card = any_card(&mut random, 40);
        let shown = text(&["show", "C"], &[("C", &card)]);
        let mut recipe = String::new();
        let mut wanted = String::new();
        for line in shown.lines() {
            match line.strip_prefix("  ") {
                None => recipe = line.split(':').next().unwrap().to_string(),
                Some(segment) => {
                    wanted += &format!("{recipe} {}\n", segment.replacen(':', ": put in:", 1))
                }
            }
        }
        let compared = run(&["compare", "A", "B"], &[("A", &[]), ("B", &card)]);
        assert_eq!(String::from_utf8(compared.out).unwrap(), wanted);
        let turned = run(&["compare", "A", "B"], &[("A", &card), ("B", &[])]);
        let turned = String::from_utf8(turned.out).unwrap();
        assert_eq!(turned.replace("taken out", "put in"), wanted);
    }
}
