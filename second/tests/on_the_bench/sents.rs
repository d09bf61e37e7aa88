//! A card sent and received.
//! Follows the page on a sent card.

use super::any::any_card;
use super::{made, said, slot, BAD_CARD};
use second::bytes::{part, Block};
use second::cipher::{set_up, Schedule};
use second::random::Random;
use second::{cbc, cmac};

const CHAIN: &str = "000102030405060708090a0b0c0d0e0f";
const SEAL: &str = "101112131415161718191a1b1c1d1e1f";
const FIRST: &str = "f0e0d0c0b0a09080706050403020100f";

const CHANGED: &str = "failed: the seal is not that of the file; the file was changed or cut, or the second key is another, which cannot be told apart; to learn which, seal any file with the second key on both sides and compare\n";
const EXCHANGED: &str =
    "failed: the seal is right under the first key; the two lines of the key file are exchanged\n";
const SAME: &str = "failed: the two lines of the key file are the same\n";
const NO_CARD: &str = "refused 12: the seal is right, so the file is as it was sent, but what it deciphers to is no good card; the first key is another\n";

fn wrong_length(bytes: &str) -> String {
    format!("failed: the file has {bytes} bytes, and a sent card has 32 to 4128, a multiple of 16; it was cut or lengthened, or is none\n")
}

fn lengthened(bytes: usize) -> String {
    format!("failed: the first {bytes} bytes are a whole sealed card; the file was lengthened\n")
}

fn bytes_of(hex: &str) -> Vec<u8> {
    let digits = (0..hex.len() / 2).map(|i| &hex[2 * i..2 * i + 2]);
    digits
        .map(|byte| u8::from_str_radix(byte, 16).unwrap())
        .collect()
}

fn hex(bytes: &[u8]) -> String {
    bytes.iter().map(|byte| format!("{byte:02x}")).collect()
}

fn schedule(cipher: u64, key: &str) -> Schedule {
    set_up(cipher, &bytes_of(key)).schedule
}

fn two_slots() -> Vec<u8> {
    [slot(1, 1, 1, 6000, 1500, 0), slot(1, 2, 2, 6000, 0, 5)].concat()
}

#[track_caller]
fn sent(cipher: &str, card: &[u8]) -> Vec<u8> {
    made(&["send", cipher, CHAIN, SEAL, FIRST, "C"], &[("C", card)])
}

#[track_caller]
fn received(cipher: &str, chain: &str, seal: &str, file: &[u8]) -> Vec<u8> {
    made(&["receive", cipher, chain, seal, "F"], &[("F", file)])
}

#[track_caller]
fn trouble(cipher: &str, chain: &str, seal: &str, file: &[u8]) -> String {
    said(&["receive", cipher, chain, seal, "F"], &[("F", file)], 1)
}

/// The seal of the bytes behind them, under the seal's key of cipher 3.
fn sealed(front: &[u8]) -> Vec<u8> {
    sealed_under(3, SEAL, front)
}

fn sealed_under(cipher: u64, key: &str, front: &[u8]) -> Vec<u8> {
    let schedule = schedule(cipher, key);
    let seal = cmac::cmac(|block| schedule.encipher(block), front);
    [front, &seal].concat()
}

#[test]
fn a_sent_card_is_first_block_chain_and_seal() {
    let chain = schedule(3, CHAIN);
    let card = two_slots();
    let plain: Vec<Block> = (0..2).map(|i| part(&card, i)).collect();
    let first: Block = part(&bytes_of(FIRST), 0);
    let enciphered = cbc::encipher(|block| chain.encipher(block), first, &plain);
    assert_eq!(
        sent("3", &card),
        sealed(&[&first[..], &enciphered.concat()].concat())
    );
    assert_eq!(sent("3", &[]), sealed(&first));
}

#[test]
fn what_was_sent_is_received() {
    let mut random = Random::seeded(74);
    for (cipher, lengths) in [
        ("1", &[16, 24, 32][..]),
        ("2", &[16, 24, 32]),
        ("3", &[16]),
        ("4", &[16]),
    ] {
        for &length in lengths {
            let [chain, seal] = [(); 2].map(|_| hex(&random.bytes(length)));
            let first = hex(&random.bytes(16));
            let card = any_card(&mut random, 20);
            let words = ["send", cipher, &chain, &seal, &first, "C"];
            let file = made(&words, &[("C", &card)]);
            assert_eq!(file.len(), card.len() + 32);
            assert_eq!(received(cipher, &chain, &seal, &file), card);
        }
    }
    let longest = [slot(1, 1, 1, 1, 1, 1), vec![0; 4080]].concat();
    assert_eq!(received("3", CHAIN, SEAL, &sent("3", &longest)), longest);
    assert_eq!(received("3", CHAIN, SEAL, &sent("3", &[])), []);
}

#[test]
fn two_keys_may_have_two_lengths() {
    let longer = format!("{SEAL}{CHAIN}");
    let file = made(
        &["send", "2", CHAIN, &longer, FIRST, "C"],
        &[("C", &two_slots())],
    );
    assert_eq!(received("2", CHAIN, &longer, &file), two_slots());
    assert_eq!(trouble("1", CHAIN, &longer, &file), other_cipher(2));
}

fn other_cipher(number: u8) -> String {
    format!("failed: the seal is right under another cipher, number {number}; take that one\n")
}

#[test]
fn each_changed_byte_is_noticed() {
    let file = sent("3", &two_slots());
    for place in 0..file.len() {
        for change in [0x01, 0x80, 0xFF] {
            let mut changed = file.clone();
            changed[place] ^= change;
            assert_eq!(trouble("3", CHAIN, SEAL, &changed), CHANGED);
        }
    }
}

#[test]
fn each_prefix_is_noticed() {
    let file = sent("3", &two_slots());
    for length in 0..file.len() {
        let said = match length {
            32 | 48 => CHANGED.to_string(),
            _ => wrong_length(&length.to_string()),
        };
        assert_eq!(trouble("3", CHAIN, SEAL, &file[..length]), said);
    }
}

#[test]
fn each_wrong_length_is_noticed() {
    for (length, said) in [
        (47, "47"),
        (4127, "4127"),
        (4129, "more than 4128"),
        (4144, "more than 4128"),
        (9999, "more than 4128"),
    ] {
        let file = vec![0; length];
        assert_eq!(trouble("3", CHAIN, SEAL, &file), wrong_length(said));
    }
    assert_eq!(trouble("3", CHAIN, SEAL, &[0; 4128]), CHANGED);
}

#[test]
fn a_lengthened_file_is_noticed() {
    for card in [two_slots(), vec![]] {
        let file = sent("3", &card);
        let length = file.len();
        for more in 1..16 {
            let longer = [&file[..], &vec![0; more]].concat();
            let said = wrong_length(&(length + more).to_string());
            assert_eq!(trouble("3", CHAIN, SEAL, &longer), said);
        }
        for more in [16, 32, 160] {
            let longer = [&file[..], &vec![0x5A; more]].concat();
            assert_eq!(trouble("3", CHAIN, SEAL, &longer), lengthened(length));
        }
    }
    let longest = sent("3", &[0; 4080]);
    let longer = [&longest[..], &[0; 16]].concat();
    assert_eq!(trouble("3", CHAIN, SEAL, &longer), lengthened(4112));
}

#[test]
fn the_shortest_front_is_named_and_the_whole_comes_before_it() {
    let short = sent("3", &[]);
    let twice = sealed(&short);
    assert_eq!(twice.len(), 48);
    assert_eq!(trouble("3", CHAIN, SEAL, &twice), NO_CARD);
    let longer = [&twice[..], &[1; 16]].concat();
    assert_eq!(trouble("3", CHAIN, SEAL, &longer), lengthened(32));
}

#[test]
fn a_front_comes_before_the_first_key_and_the_other_ciphers() {
    let file = sent("3", &two_slots());
    let keys = [(1, SEAL), (2, SEAL), (3, CHAIN), (4, SEAL)];
    for longer in keys.map(|(cipher, key)| sealed_under(cipher, key, &file)) {
        assert_eq!(trouble("3", CHAIN, SEAL, &longer), lengthened(64));
    }
}

#[test]
fn a_lengthened_file_is_noticed_whatever_the_first_key_is() {
    let longer = [&sent("3", &two_slots())[..], &[0; 16]].concat();
    let other = "000102030405060708090a0b0c0d0e0e";
    assert_eq!(trouble("3", other, SEAL, &longer), lengthened(64));
}

#[test]
fn exchanged_lines_are_noticed() {
    let file = sent("3", &two_slots());
    assert_eq!(trouble("3", SEAL, CHAIN, &file), EXCHANGED);
    let longer = [&file[..], &[0; 16]].concat();
    assert_eq!(trouble("3", SEAL, CHAIN, &longer), CHANGED);
    assert_eq!(trouble("1", SEAL, CHAIN, &file), CHANGED);
}

#[test]
fn another_cipher_is_noticed() {
    for right in ["1", "2", "3", "4"] {
        let file = sent(right, &two_slots());
        for other in ["1", "2", "3", "4"]
            .into_iter()
            .filter(|other| *other != right)
        {
            let said = other_cipher(right.parse().unwrap());
            assert_eq!(trouble(other, CHAIN, SEAL, &file), said);
            let longer = [&file[..], &[0; 16]].concat();
            assert_eq!(trouble(other, CHAIN, SEAL, &longer), CHANGED);
        }
    }
}

#[test]
fn another_first_key_is_noticed_where_there_is_a_card() {
    let other = "000102030405060708090a0b0c0d0e0e";
    assert_eq!(trouble("3", other, SEAL, &sent("3", &two_slots())), NO_CARD);
    assert_eq!(received("3", other, SEAL, &sent("3", &[])), []);
    assert_eq!(
        trouble("3", CHAIN, other, &sent("3", &two_slots())),
        CHANGED
    );
}

#[test]
fn bad_cards_are_not_sent() {
    for card in [&[1][..], &[0; 4112], &slot(0, 1, 1, 1, 1, 1)] {
        let words = ["send", "3", CHAIN, SEAL, FIRST, "C"];
        assert_eq!(said(&words, &[("C", card)], 1), BAD_CARD);
    }
}

#[test]
fn keys_are_legal_and_not_blank_and_differ() {
    let blank = "55".repeat(16);
    for (cipher, chain, seal, refused) in [
        ("0", CHAIN, SEAL, "refused 1\n"),
        ("5", CHAIN, SEAL, "refused 1\n"),
        ("3", &CHAIN[2..], SEAL, "refused 2\n"),
        ("3", CHAIN, &SEAL[2..], "refused 2\n"),
        ("3", &blank, SEAL, "refused 17\n"),
        ("3", CHAIN, &blank, "refused 17\n"),
        ("3", CHAIN, CHAIN, SAME),
    ] {
        let card = two_slots();
        let words = ["send", cipher, chain, seal, FIRST, "C"];
        assert_eq!(said(&words, &[("C", &card)], 1), refused);
        assert_eq!(trouble(cipher, chain, seal, &sent("3", &card)), refused);
    }
}

#[test]
fn keys_come_before_the_length_and_the_first_before_the_second() {
    let blank = "55".repeat(16);
    let short = "00";
    for (cipher, chain, seal, refused) in [
        ("7", short, "", "refused 1\n"),
        ("7", &blank, &blank, "refused 1\n"),
        ("7", CHAIN, CHAIN, "refused 1\n"),
        ("3", short, SEAL, "refused 2\n"),
        ("3", CHAIN, short, "refused 2\n"),
        ("3", short, &blank, "refused 2\n"),
        ("3", short, short, "refused 2\n"),
        ("3", &blank, SEAL, "refused 17\n"),
        ("3", CHAIN, &blank, "refused 17\n"),
        ("3", &blank, short, "refused 17\n"),
        ("3", &blank, &blank, "refused 17\n"),
        ("3", CHAIN, CHAIN, SAME),
    ] {
        for length in [0, 16, 31, 32, 47, 4127, 4128, 4129, 4144, 9999] {
            assert_eq!(trouble(cipher, chain, seal, &vec![0; length]), refused);
        }
    }
}
