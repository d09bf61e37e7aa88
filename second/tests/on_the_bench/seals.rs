//! Seals written and checked.
//! Follows the page on the bench, its end, and document 02, request 3.

use super::{made, run, said, text};
use second::cipher::set_up;
use second::cmac::cmac;

const KEY: &str = "000102030405060708090a0b0c0d0e0f";
const YES: &str = "yes: this is the seal of the file\n";
const NO: &str =
    "no: this is not the seal of the file; the file, the key or the cipher is another one\n";

fn seal_of(file: &[u8]) -> String {
    text(&["seal", "3", KEY, "F"], &[("F", file)])
}

#[track_caller]
fn is_no(words: &[&str], file: &[u8]) {
    let outcome = run(words, &[("F", file)]);
    assert_eq!((&outcome.out[..], outcome.status), (NO.as_bytes(), 1));
    assert_eq!(outcome.said, "");
}

#[test]
fn a_seal_is_32_small_hex_digits() {
    let key: Vec<u8> = (0..16).collect();
    let schedule = set_up(3, &key).schedule;
    for file in [&b""[..], b"a", &[7; 16], &[9; 100]] {
        let seal = cmac(|block| schedule.encipher(block), file);
        let digits = seal.map(|byte| format!("{byte:02x}")).concat();
        assert_eq!(seal_of(file), digits + "\n");
    }
}

#[test]
fn a_check_says_yes_or_no() {
    let file = b"any file";
    let line = seal_of(file);
    let seal = line.trim_end();
    let files = [("F", &file[..])];
    assert_eq!(
        made(&["check", "3", KEY, seal, "F"], &files),
        YES.as_bytes()
    );
    let capitals = seal.to_uppercase();
    assert_eq!(
        made(&["check", "3", KEY, &capitals, "F"], &files),
        YES.as_bytes()
    );
    is_no(&["check", "3", KEY, seal, "F"], b"any  file");
    is_no(&["check", "4", KEY, seal, "F"], file);
    is_no(
        &["check", "3", "010102030405060708090a0b0c0d0e0f", seal, "F"],
        file,
    );
    is_no(&["check", "3", KEY, &seal[..30], "F"], file);
    is_no(&["check", "3", KEY, &format!("{seal}00"), "F"], file);
    is_no(&["check", "3", KEY, "", "F"], file);
}

#[test]
fn refusals_have_their_numbers() {
    let files = [("F", &b""[..]), ("M", &vec![0; 1_048_577])];
    let blank = "ff".repeat(16);
    for (cipher, key, file, refused) in [
        ("0", KEY, "F", "refused 1\n"),
        ("259", KEY, "F", "refused 1\n"),
        ("3", &KEY[..30], "F", "refused 2\n"),
        ("3", &blank, "F", "refused 17\n"),
        ("3", KEY, "M", "refused 8\n"),
    ] {
        assert_eq!(said(&["seal", cipher, key, file], &files, 1), refused);
        assert_eq!(said(&["check", cipher, key, KEY, file], &files, 2), refused);
    }
}
