//! Document 002's three vectors: the print, the settled digits, and why; and four of the
//! designers' Noekeon from outside.
//! Follows document 002, section 4, document 01, 'Marked cases', its last paragraph, and
//! document 02, request 7.

use second::bytes::{part, Block};
use second::cipher::{self, decipher_block, encipher_block, schedule_of};
use second::entry::entry;
use second::hierocrypt3::{decipher, encipher, keys::set_up, rounds};
use second::replay::vectors::{NOEKEON_VECTORS, VECTORS};

const KEY: usize = 0;
const PLAINTEXT: usize = 1;
const CIPHERTEXT: usize = 2;

/// Key, plaintext and ciphertext, word for word as printed.
const PRINTED: [[&[&str]; 3]; 3] = [
    [
        &["0x4703c87e", "0x817842c4", "0xce6b167d", "0x43701b76"],
        &["0x85693846", "0xdb4c1b34", "0x87272e55", "0x5761cTf5"],
        &["0x5c¢5{4b00", "Oxaec36d89", "0x3cfl04le", "0x7fa8bae8"],
    ],
    [
        &[
            "0x7742a038",
            "0x89b58601",
            "0xf74d5513",
            "0x88872377",
            "0x324fbcld",
            "0x30c54fc6",
        ],
        &["0x54406620", "0x9d931b33", "0x0c9089fd", "0xb4cb8259"],
        &["0x1d310598", "0x8dbbd50c", "0xb0al7193", "Oxeabba244"],
    ],
    [
        &[
            "0x11a18026",
            "0x9a78ddad",
            "0x99474621",
            "0x3b5a6dd6",
            "Oxe34ffe0c",
            "0xc465d583",
            "Oxaff66el3",
            "0x29419c94",
        ],
        &["Oxcl6d7efc", "Oxalcbafc?", "0x625cbe9c", "0x2593de2d"],
        &["0xc86cd3b4", "0xa3185232", "0xe3457d63", "0x8c6515¢9"],
    ],
];

/// One place where the print isn't the settled text. Vectors and words count from 1;
/// so do places, behind the 0x, whose own first character is place -1.
struct Difference {
    vector: usize,
    field: usize,
    word: usize,
    place: i32,
    printed: char,
    settled: &'static str,
    why: &'static str,
}

const fn at(
    (vector, field, word, place): (usize, usize, usize, i32),
    printed: char,
    settled: &'static str,
    why: &'static str,
) -> Difference {
    Difference {
        vector,
        field,
        word,
        place,
        printed,
        settled,
        why,
    }
}

const LETTER: &str = "a letter for the digit it looks like";
const EXTRA: &str = "the word has nine characters; this one is the c before it once more";
const CIPHERTEXT_ALONE: &str = "only this digit of the ciphertext differs from the rules";
const KEY_ALONE: &str = "only this change of one digit makes the vector hold";

const DIFFERENCES: [Difference; 20] = [
    at((1, PLAINTEXT, 4, 6), 'T', "7", LETTER),
    at((1, CIPHERTEXT, 1, 3), '¢', "", EXTRA),
    at((1, CIPHERTEXT, 1, 5), '{', "f", LETTER),
    at((1, CIPHERTEXT, 2, -1), 'O', "0", LETTER),
    at((1, CIPHERTEXT, 3, 4), 'l', "1", LETTER),
    at((1, CIPHERTEXT, 3, 7), 'l', "1", LETTER),
    at((2, KEY, 5, 7), 'l', "1", LETTER),
    at((2, CIPHERTEXT, 3, 4), 'l', "1", LETTER),
    at((2, CIPHERTEXT, 4, -1), 'O', "0", LETTER),
    at((2, CIPHERTEXT, 4, 3), 'b', "5", CIPHERTEXT_ALONE),
    at((3, KEY, 2, 8), 'd', "4", KEY_ALONE),
    at((3, KEY, 5, -1), 'O', "0", LETTER),
    at((3, KEY, 7, -1), 'O', "0", LETTER),
    at((3, KEY, 7, 7), 'l', "1", LETTER),
    at((3, PLAINTEXT, 1, -1), 'O', "0", LETTER),
    at((3, PLAINTEXT, 1, 2), 'l', "1", LETTER),
    at((3, PLAINTEXT, 2, -1), 'O', "0", LETTER),
    at((3, PLAINTEXT, 2, 2), 'l', "1", LETTER),
    at((3, PLAINTEXT, 2, 8), '?', "7", LETTER),
    at((3, CIPHERTEXT, 4, 7), '¢', "c", LETTER),
];

fn settled(vector: usize) -> [Vec<u8>; 3] {
    let vector = &VECTORS[vector - 1];
    [
        vector.key_bytes(),
        vector.plaintext_block().to_vec(),
        vector.ciphertext_block().to_vec(),
    ]
}

/// The word as it stands in the settled text.
fn settled_word(vector: usize, field: usize, word: usize) -> String {
    let word: [u8; 4] = part(&settled(vector)[field], word - 1);
    format!("{:#010x}", u32::from_be_bytes(word))
}

/// The printed word with the listed differences, and only those, put right.
fn repaired(vector: usize, field: usize, word: usize) -> (String, usize) {
    let mut text = String::new();
    let mut put_right = 0;
    for (i, printed) in PRINTED[vector - 1][field][word - 1].chars().enumerate() {
        let listed = DIFFERENCES
            .iter()
            .find(|d| (d.vector, d.field, d.word, d.place) == (vector, field, word, i as i32 - 1));
        match listed {
            Some(d) => {
                assert_eq!(d.printed, printed, "{}", d.why);
                assert_ne!(d.settled, printed.to_string());
                text.push_str(d.settled);
                put_right += 1;
            }
            None => text.push(printed),
        }
    }
    (text, put_right)
}

fn holds(key: &[u8], plaintext: &[u8], ciphertext: &[u8]) -> bool {
    let round_keys = set_up(key);
    encipher(&round_keys, rounds(key.len()), part(plaintext, 0)) == ciphertext
}

fn vector_holds(fields: &[Vec<u8>; 3]) -> bool {
    holds(&fields[KEY], &fields[PLAINTEXT], &fields[CIPHERTEXT])
}

/// The fields with hex digit `digit` of the field, counted from 0, set to `value`.
fn with_digit(fields: &[Vec<u8>; 3], field: usize, digit: usize, value: u8) -> [Vec<u8>; 3] {
    let mut changed = fields.clone();
    let byte = &mut changed[field][digit / 2];
    *byte = match digit % 2 {
        0 => *byte & 0x0F | value << 4,
        _ => *byte & 0xF0 | value,
    };
    changed
}

/// Every change of one hex digit of the field after which the vector holds.
fn mending_changes(fields: &[Vec<u8>; 3], field: usize) -> Vec<(usize, u8)> {
    let digits = 0..2 * fields[field].len();
    let changes = digits.flat_map(|digit| (0..16).map(move |value| (digit, value)));
    changes
        .filter(|&(digit, value)| vector_holds(&with_digit(fields, field, digit, value)))
        .collect()
}

#[test]
fn the_listed_differences_are_the_differences() {
    let mut put_right = 0;
    for vector in 1..=3 {
        for field in [KEY, PLAINTEXT, CIPHERTEXT] {
            assert_eq!(
                4 * PRINTED[vector - 1][field].len(),
                settled(vector)[field].len()
            );
            for word in 1..=PRINTED[vector - 1][field].len() {
                let (text, count) = repaired(vector, field, word);
                assert_eq!(text, settled_word(vector, field, word));
                put_right += count;
            }
        }
    }
    assert_eq!(put_right, DIFFERENCES.len());
}

#[test]
fn the_cipher_gives_the_settled_vectors_in_both_directions() {
    for vector in &VECTORS {
        let key = vector.key_bytes();
        let round_keys = set_up(&key);
        let (plaintext, ciphertext) = (vector.plaintext_block(), vector.ciphertext_block());
        let rounds = rounds(key.len());
        assert_eq!(encipher(&round_keys, rounds, plaintext), ciphertext);
        assert_eq!(decipher(&round_keys, rounds, ciphertext), plaintext);
    }
}

#[test]
fn no_other_digit_fits_where_a_digit_is_broken() {
    for difference in &DIFFERENCES {
        if difference.place < 0 || difference.settled.is_empty() {
            continue;
        }
        let fields = settled(difference.vector);
        let digit = digit_number(difference);
        let fitting: Vec<u8> = (0..16)
            .filter(|&value| vector_holds(&with_digit(&fields, difference.field, digit, value)))
            .collect();
        let settled = u8::from_str_radix(difference.settled, 16).unwrap();
        assert_eq!(fitting, [settled]);
    }
}

/// The digit's number in its field from 0; a dropped character before it doesn't count.
fn digit_number(difference: &Difference) -> usize {
    let dropped = DIFFERENCES.iter().filter(|d| {
        (d.vector, d.field, d.word) == (difference.vector, difference.field, difference.word)
            && d.settled.is_empty()
            && d.place < difference.place
    });
    8 * (difference.word - 1) + difference.place as usize - 1 - dropped.count()
}

#[test]
fn the_second_vector_is_mended_in_the_ciphertext_and_nowhere_else() {
    let misprinted = with_digit(&settled(2), CIPHERTEXT, 26, 0xb);
    assert!(!vector_holds(&misprinted));
    assert_eq!(mending_changes(&misprinted, CIPHERTEXT), [(26, 0x5)]);
    assert_eq!(mending_changes(&misprinted, PLAINTEXT), []);
    assert_eq!(mending_changes(&misprinted, KEY), []);
}

#[test]
fn the_third_vector_is_mended_in_the_key_and_nowhere_else() {
    let misprinted = with_digit(&settled(3), KEY, 15, 0xd);
    assert!(!vector_holds(&misprinted));
    assert_eq!(mending_changes(&misprinted, KEY), [(15, 0x4)]);
    assert_eq!(mending_changes(&misprinted, PLAINTEXT), []);
    assert_eq!(mending_changes(&misprinted, CIPHERTEXT), []);
}

#[test]
fn the_overlong_word_has_one_reading_without_a_character() {
    let printed: Vec<char> = PRINTED[0][CIPHERTEXT][0].chars().skip(2).collect();
    assert_eq!(printed.len(), 9);
    let rule: Block = VECTORS[0].ciphertext_block();
    let expected = settled_word(1, CIPHERTEXT, 1);
    assert_eq!(part::<4>(&rule, 0), [0x5c, 0x5f, 0x4b, 0x00]);
    let readings: Vec<usize> = (0..9)
        .filter(|&left_out| {
            let digits = printed.iter().enumerate().filter(|(i, _)| *i != left_out);
            let read: String = digits.map(|(_, c)| read_as(*c)).collect();
            format!("0x{read}") == expected
        })
        .collect();
    assert_eq!(readings, [1, 2], "one of the two characters read as c");
}

fn read_as(printed: char) -> char {
    match printed {
        '¢' => 'c',
        '{' => 'f',
        other => other,
    }
}

/// In direct mode: the vector in the test that libtomcrypt 1.18 has of its Noekeon, and
/// three blocks as that library enciphers them: zeros under zeros, ones under ones, and
/// what came out of the second under what came out of the first.
#[test]
fn number_3_gives_the_vectors_of_the_designers_noekeon_and_number_4_does_not() {
    for vector in &NOEKEON_VECTORS {
        let (plaintext, ciphertext) = (vector.plaintext_block(), vector.ciphertext_block());
        let under = |number| schedule_of(number, &vector.key_bytes());
        assert_eq!(under(3).encipher(plaintext), ciphertext);
        assert_eq!(under(3).decipher(ciphertext), plaintext);
        assert_ne!(under(4).encipher(plaintext), ciphertext);
        assert_ne!(under(4).decipher(ciphertext), plaintext);
    }
}

/// Zeros under zeros and ones under ones: set-up and entry refuse the keys.
#[test]
fn vectors_with_blank_keys_are_run_on_the_block_calls_with_a_schedule_record() {
    let blank = |key: &[u8]| key == [key[0]; 16];
    let vectors = NOEKEON_VECTORS.iter();
    let vectors: Vec<_> = vectors
        .filter(|vector| blank(&vector.key_bytes()))
        .collect();
    assert_eq!(vectors.len(), 2);
    for vector in vectors {
        let key = vector.key_bytes();
        let (plaintext, ciphertext) = (vector.plaintext_block(), vector.ciphertext_block());
        assert_eq!(cipher::set_up(3, &key).answer.number(), 17);
        let refused = entry(3, 1, &key, &plaintext, &[0xEE; 16]);
        assert_eq!(
            (refused.answer.number(), &refused.out[..]),
            (17, &[0xEE; 16][..])
        );
        let schedule = schedule_of(3, &key);
        assert_eq!(schedule.round_keys[..16], key);
        let enciphered = encipher_block(&schedule, &plaintext, &[0; 16]);
        assert_eq!(
            (enciphered.answer.number(), &enciphered.out[..]),
            (0, &ciphertext[..])
        );
        let deciphered = decipher_block(&schedule, &ciphertext, &[0; 16]);
        assert_eq!(
            (deciphered.answer.number(), &deciphered.out[..]),
            (0, &plaintext[..])
        );
    }
}
