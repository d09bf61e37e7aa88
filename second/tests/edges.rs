//! The edge cases of recipe cards and of two compared as a person would write them down,
//! those of the ciphers and of records, and the cuts, with every block computed by the C
//! entry and the definition of CBC alone, and those of seals with every seal computed by
//! the one block call and the steps of CMAC.
//! Follows document 02, requests 1 to 3 and 5 to 7, document 01, 'Marked cases', its last
//! paragraph, and the definitions of CBC in NIST SP 800-38A and of CMAC in SP 800-38B.

mod cmac_by_bytes;

use cmac_by_bytes::cmac;
use second::bytes::{part, xor, Block};
use second::cipher::{encipher_block, set_up};
use second::edges::{cards, ciphers, compare, cuts, records, seals};
use second::entry::entry;
use second::noekeon::{DESIGNERS, EARLIER};
use second::{e2, hierocrypt3};

const SAID_OF_CARDS: &str = "\
no bytes: good yes
  find 1 1: nothing
  put 000101022ee00258001e000000000000: answer 14, all as it was
256 full slots: good yes
  find 1 1: 0001010103e80258000a000000000000
  find 8 32: 0008200104e70258000a000000000000
  find 9 1: nothing
  put 000901022ee00258001e000000000000: answer 14, all as it was
  put 000820022ee00258001e000000000000: answer 0, slot 256 is 000820022ee00258001e000000000000
4112 bytes: good no
  find 1 1: nothing
  put 000101022ee00258001e000000000000: answer 12, all as it was
15 bytes: good no
  find 1 1: nothing
  put 000101022ee00258001e000000000000: answer 12, all as it was
a pair twice: good no
  find 1 1: nothing
  put 000102022ee00258001e000000000000: answer 12, all as it was
the same pair in no other slot: good yes
  find 1 2: 000102022ee00258001e000000000000
  find 2 1: 000201022ee00258001e000000000000
  find 2 2: nothing
target 13500: good yes
  find 1 1: 0001010134bc0258001e000000000000
target 13501: good no
  find 1 1: nothing
segment 0: good no
  find 1 0: nothing
segment 1: good yes
  find 1 1: 000101022ee00258001e000000000000
segment 32: good yes
  find 1 32: 000120022ee00258001e000000000000
segment 33: good no
  find 1 33: nothing
recipe 0: good no
  find 0 1: nothing
recipe 65535: good yes
  find 65535 1: ffff01022ee00258001e000000000000
  find 131071 1: nothing
kind 0: good no
  find 1 1: nothing
kind 3: good yes
  find 1 1: 000101032ee00258001e000000000000
kind 4: good no
  find 1 1: nothing
a tail byte of 1: good no
  find 1 1: nothing
a rate and a hold of 65535: good yes
  find 1 1: 000101030000ffffffff000000000000
an empty slot: good yes
  find 0 0: nothing
  find 0 1: nothing
  put 000101022ee00258001e000000000000: answer 0, slot 1 is 000101022ee00258001e000000000000
  put 00000000000000000000000000000000: answer 13, all as it was
  put 000101022ee00258001e0000000000: answer 13, all as it was
  put 0001010134bd0258001e000000000000: answer 13, all as it was
a namesake behind an empty slot: good yes
  find 1 1: 000101022ee00258001e000000000000
  put 0001010300c800320000000000000000: answer 0, slot 2 is 0001010300c800320000000000000000
  put 000102022ee00258001e000000000000: answer 0, slot 1 is 000102022ee00258001e000000000000
a bad slot behind a good one: good no
  find 1 1: nothing
  put 000101022ee00258001e000000000000: answer 12, all as it was
  put 00000000000000000000000000000000: answer 12, all as it was
";

#[test]
fn the_edge_cases_of_cards_are_as_said() {
    is_as_said(&cards(), SAID_OF_CARDS);
}

/// The first line that differs is shown, before the whole.
fn is_as_said(given: &str, said: &str) {
    for (given, said) in given.lines().zip(said.lines()) {
        assert_eq!(given, said);
    }
    assert_eq!(given, said);
}

/// What is said of each cipher's streams: `<c1>` and `<c2>` stand for the message of two
/// blocks enciphered, `<p>` for the last block of the million bytes deciphered, and
/// `<ee>` for an output as it was.
const SAID_OF_STREAMS: &str = "  \
  start in direction 3: answer 4
  start in direction 257: answer 4
  start from 15 bytes: answer 3
  start to encipher: answer 0
  a piece of 7: answer 0, writes 0, output <ee>
  then a piece of 9: answer 0, writes 16, output <c1>
  then finish: answer 0
  then a piece of 1: answer 7, writes 0, output <ee>
  a piece of 31: answer 0, writes 16, output <c1>
  it holds 15
  then finish: answer 10
  then a piece of 1: answer 0, writes 16, output <c2>
  a piece of 16 into 15 of room: answer 9, writes 0, output eeeeeeeeeeeeeeeeeeeeeeeeeeeeee
  then again, into 16: answer 0, writes 16, output <c1>
  an empty message finished: answer 0
  start to decipher: answer 0
  1048576 bytes at once: answer 0, writes 1048576, the last 16 <p>
  then 1 more: answer 8, writes 0, output <ee>
  then an empty piece: answer 0, writes 0, output <ee>
  then finish: answer 0
";

const AS_IT_WAS: Block = [0xEE; 16];

fn hex(block: Block) -> String {
    format!("{:032x}", u128::from_be_bytes(block))
}

fn worked(cipher: u64, direction: u64, key: &[u8], block: Block) -> Block {
    let back = entry(cipher, direction, key, &block, &[0; 16]);
    assert_eq!(back.answer.number(), 0);
    part(&back.out, 0)
}

fn said_of_key(cipher: u64, length: usize) -> String {
    let legal = match cipher {
        1 | 2 => [16, 24, 32].contains(&length),
        _ => length == 16,
    };
    let key = &b"0123456789abcdefghijklmnopqrstuvw"[..length];
    let (answer, block_answer, output) = if legal {
        (0, 0, worked(cipher, 1, key, *b"sixteen letters."))
    } else {
        (2, 5, AS_IT_WAS)
    };
    format!(
        "  a key of {length} bytes: answer {answer}; \
         a block under it: answer {block_answer}, output {}\n",
        hex(output)
    )
}

/// What is said of each cipher's blank keys: `<17>` stands for the answer to a key length
/// that only ciphers 1 and 2 have, `<first>`, `<last>` and `<used>` for the block under the
/// key or the schedule that the line is about, and `<ee>` for an output as it was.
const SAID_OF_BLANK_KEYS: &str = "  \
  a key of 15 bytes, each ff: answer 2; a block under it: answer 5, output <ee>
  a key of 16 bytes, each ff: answer 17; a block under it: answer 5, output <ee>
  a key of 24 bytes, each ff: answer <17>; a block under it: answer 5, output <ee>
  a key of 32 bytes, each ff: answer <17>; a block under it: answer 5, output <ee>
  a key of 16 bytes, each 00: answer 17; a block under it: answer 5, output <ee>
  a key of 16 bytes, each ff but the first, fe: answer 0; a block under it: answer 0, output <first>
  a key of 16 bytes, each ff but the last, fe: answer 0; a block under it: answer 0, output <last>
  a schedule for keys of 16 bytes, each used byte ff: a block under it: answer 0, output <used>
";

fn said_of_blank_keys(cipher: u64) -> String {
    let block = *b"sixteen letters.";
    let ones = u128::MAX.to_be_bytes();
    let first = (u128::MAX - (1 << 120)).to_be_bytes();
    let last = (u128::MAX - 1).to_be_bytes();
    let used = match cipher {
        1 => hierocrypt3::encipher(&[0xFF; 224], 6, block),
        2 => e2::encipher(&[0xFF; 256], block),
        3 => DESIGNERS.encipher(ones, block),
        _ => EARLIER.encipher(ones, block),
    };
    SAID_OF_BLANK_KEYS
        .replace("<17>", if cipher < 3 { "17" } else { "2" })
        .replace("<first>", &hex(worked(cipher, 1, &first, block)))
        .replace("<last>", &hex(worked(cipher, 1, &last, block)))
        .replace("<used>", &hex(used))
        .replace("<ee>", &hex(AS_IT_WAS))
}

/// The second block of the message ends with its first letter once more.
fn said_of_streams(cipher: u64) -> String {
    let key = b"0123456789abcdef";
    let c1 = xor(*b"the message of t", *b"the first block.");
    let c1 = worked(cipher, 1, key, c1);
    let c2 = worked(cipher, 1, key, xor(*b"hirty-one bytest", c1));
    let p = xor(worked(cipher, 2, key, [3; 16]), [3; 16]);
    SAID_OF_STREAMS
        .replace("<c1>", &hex(c1))
        .replace("<c2>", &hex(c2))
        .replace("<p>", &hex(p))
        .replace("<ee>", &hex(AS_IT_WAS))
}

fn said_of_cipher(cipher: u64) -> String {
    let heading = format!("cipher {cipher}\n");
    let keys = [15, 16, 17, 24, 32, 33].map(|length| said_of_key(cipher, length));
    let blank = said_of_blank_keys(cipher);
    [heading, keys.concat(), blank, said_of_streams(cipher)].concat()
}

#[test]
fn the_edge_cases_of_ciphers_are_as_said() {
    is_as_said(&ciphers(), &[1, 2, 3, 4].map(said_of_cipher).concat());
}

/// The four blocks under number 3, as libtomcrypt 1.18 gives them: one block, and its
/// CBC in both directions.
#[test]
fn number_3_has_the_blocks_of_libtomcrypt() {
    let text = ciphers();
    let from = text.find("cipher 3\n").unwrap();
    let to = text.find("cipher 4\n").unwrap();
    let ends = [
        "a block under it: answer 0, output daa758f1d84fb91f5c5d0d7220d3cfb7",
        "then a piece of 9: answer 0, writes 16, output 7ad036c87f67508daa30831cc864b431",
        "then a piece of 1: answer 0, writes 16, output efc0a1864c7f3ba1b876e8b8e6e57c62",
        "writes 1048576, the last 16 fc029ae2e856dc058573471afdf3153f",
    ];
    for end in ends {
        let lines = text[from..to].lines();
        assert_eq!(lines.filter(|line| line.ends_with(end)).count(), 1, "{end}");
    }
}

/// What is said of each cipher's seals but for the messages of each length: `<16>` and
/// `<33>` stand for the seals of so many bytes, `<million>` for that of the million, and
/// `<ee>` for an output as it was.
const SAID_OF_SEALS: &str = "  \
  16 bytes, then an empty piece: answer 0, holds 16, then the seal: answer 0, output <16>
  33 bytes, the seal into 15 of room: answer 9, output eeeeeeeeeeeeeeeeeeeeeeeeeeeeee
  then into 17 of room: answer 0, output <33>ee
  then once more: answer 7, output <ee>
  then a piece of 1: answer 7, holds 1
  then a check of the seal: answer 7, no
  33 bytes, a check of 0 bytes: answer 0, no
  33 bytes, a check of 15 bytes: answer 0, no
  33 bytes, a check of 16 bytes: answer 0, yes
  then once more: answer 7, no
  33 bytes, a check of 17 bytes: answer 0, no
  33 bytes, a check of 16 bytes with the last bit changed: answer 0, no
  then the right 16 bytes: answer 7, no
  1048576 bytes at once: answer 0, holds 16
  then 1 more: answer 8, holds 16
  then an empty piece: answer 0, holds 16
  then the seal: answer 0, output <million>
";

const SAID_OF_STARTS: &str = "  \
  a start under a refused schedule: answer 5
  then a piece of 1: answer 6, holds 0
  a start: answer 0
";

/// Each length with the number of bytes that are held.
const LENGTHS: [(usize, usize); 8] = [
    (0, 0),
    (1, 1),
    (15, 15),
    (16, 16),
    (17, 1),
    (31, 15),
    (32, 16),
    (33, 1),
];

fn said_of_seals(cipher: u64) -> String {
    let schedule = set_up(cipher, b"0123456789abcdef").schedule;
    let e = |block: Block| part(&encipher_block(&schedule, &block, &[0; 16]).out, 0);
    let message = b"the message of thirty-three bytes";
    let seal = |length: usize| hex(cmac(&e, &message[..length]));
    let lines = LENGTHS.map(|(n, held)| {
        let line = |pieces: String| {
            let seal = seal(n);
            format!(
                "  {n} bytes in {pieces}: answer 0, holds {held}, \
                 then the seal: answer 0, output {seal}\n"
            )
        };
        line("one piece".to_string()) + &line(format!("{n} pieces of 1"))
    });
    let rest = SAID_OF_SEALS
        .replace("<16>", &seal(16))
        .replace("<33>", &seal(33))
        .replace("<million>", &hex(cmac(&e, &vec![3; 1_048_576])))
        .replace("<ee>", &hex(AS_IT_WAS));
    let heading = format!("cipher {cipher}\n");
    [heading, SAID_OF_STARTS.to_string(), lines.concat(), rest].concat()
}

#[test]
fn the_edge_cases_of_seals_are_as_said() {
    is_as_said(&seals(), &[1, 2, 3, 4].map(said_of_seals).concat());
}

/// What is said of each cipher's records: `<n>` stands for its number, `<c1>` and `<c2>`
/// for the message of two blocks enciphered, `<x>` for the second under the other key,
/// `<first>` for the first block, `<held>` for the last 15 bytes of the message, `<ee>`
/// for an output as it was, `<zeros>` for the stream of a refused start, and `<16>` for
/// the answer to a key length that only ciphers 1 and 2 have.
const SAID_OF_RECORDS: &str = "\
cipher <n>
  a stream of zeros laid down: answer 6, output <ee><ee>eeeeeeeeeeeeeeee
  a fresh stream laid down: answer 0, output 0<n>10010000000000<first>00000000000000000000000000000000
  31 bytes fed, laid down in 39 of room: answer 9, output <ee><ee>eeeeeeeeeeeeee
  then in 41 of room: answer 0, output 0<n>1001000000001f<c1><held>00ee
  taken up: answer 0, direction 1, count 31, chain <c1>, held <held>, open
  then a piece of 1: answer 0, writes 16, output <c2>
  the stream that was laid down, a piece of 1: answer 0, writes 16, output <c2>
  taken up under another key: answer 0, direction 1, count 31, chain <c1>, held <held>, open
  then a piece of 1: answer 0, writes 16, output <x>
  taken up under a schedule of zeros: answer 5, <zeros>
  no bytes under a schedule of zeros: answer 5, <zeros>
  no bytes: answer 15, <zeros>
  39 bytes: answer 15, <zeros>
  41 bytes: answer 15, <zeros>
  44 bytes: answer 15, <zeros>
  cipher 0: answer 15, <zeros>
  cipher 5: answer 15, <zeros>
  another cipher: answer 16, <zeros>
  another cipher, and direction 3: answer 15, <zeros>
  a key length of 15: answer 15, <zeros>
  a key length of 24: answer <16>, <zeros>
  a key length of 32: answer <16>, <zeros>
  direction 0: answer 15, <zeros>
  direction 2: answer 0, direction 2, count 31, chain <c1>, held <held>, open
  direction 3: answer 15, <zeros>
  closed, with 15 bytes held: answer 15, <zeros>
  a closed byte of 2: answer 15, <zeros>
  a count of 30: answer 15, <zeros>
  a count of 16777247: answer 15, <zeros>
  the last held byte 1: answer 15, <zeros>
  32 bytes and finish, laid down: answer 0, output 0<n>10010100000020<c2>00000000000000000000000000000000
  taken up: answer 0, direction 1, count 32, chain <c2>, held 000000000000000000000000000000, closed
  then a piece of 1: answer 7, writes 0, output <ee>
  a count of 1048576: answer 0, direction 1, count 1048576, chain <c2>, held 000000000000000000000000000000, open
  then a piece of 1: answer 8, writes 0, output <ee>
  a count of 1048577: answer 15, <zeros>
";

const OF_A_REFUSED_START: &str = "direction 0, count 0, \
chain 00000000000000000000000000000000, held 000000000000000000000000000000, open";

fn said_of_records(cipher: u64) -> String {
    let (key, other) = (b"0123456789abcdef", b"fedcba9876543210");
    let c1 = xor(*b"the message of t", *b"the first block.");
    let c1 = worked(cipher, 1, key, c1);
    let second = xor(*b"hirty-one bytest", c1);
    let c2 = worked(cipher, 1, key, second);
    let x = worked(cipher, 1, other, second);
    SAID_OF_RECORDS
        .replace("<n>", &cipher.to_string())
        .replace("<c1>", &hex(c1))
        .replace("<c2>", &hex(c2))
        .replace("<x>", &hex(x))
        .replace("<first>", &hex(*b"the first block."))
        .replace("<held>", &hex(*b"hirty-one bytest")[..30])
        .replace("<ee>", &hex(AS_IT_WAS))
        .replace("<zeros>", OF_A_REFUSED_START)
        .replace("<16>", if cipher < 3 { "16" } else { "15" })
}

#[test]
fn the_edge_cases_of_records_are_as_said() {
    is_as_said(&records(), &[1, 2, 3, 4].map(said_of_records).concat());
}

/// Chain and last block after 96 bytes, out of the definition of CBC.
fn after_96(cipher: u64, key: &[u8], direction: u64) -> (Block, Block) {
    let (mut chain, mut given) = (*b"the first block.", [0; 16]);
    for j in 0..6 {
        let block: Block = std::array::from_fn(|i| ((7 * (16 * j + i) + 3) % 256) as u8);
        if direction == 1 {
            given = worked(cipher, 1, key, xor(block, chain));
            chain = given;
        } else {
            given = xor(worked(cipher, 2, key, block), chain);
            chain = block;
        }
    }
    (chain, given)
}

fn said_of_cuts(cipher: u64, length: usize, direction: u64) -> String {
    let key = &b"0123456789abcdefghijklmnopqrstuv"[..length];
    let (chain, given) = after_96(cipher, key, direction);
    let (chain, given) = (hex(chain), hex(given));
    let held = "a3aab1b8000000000000000000000000";
    format!(
        "cipher {cipher}, a key of {length} bytes, direction {direction}: \
         5151 runs with one cut, 0 differ; 101 runs with a cut at every byte, 0 differ; \
         after 100 bytes the record is \
         {cipher:02x}{length:02x}{direction:02x}0000000064{chain}{held}, \
         the last block written {given}\n"
    )
}

#[test]
fn the_cuts_at_every_byte_are_as_said() {
    let mut said = String::new();
    for (cipher, length) in [
        (1, 16),
        (1, 24),
        (1, 32),
        (2, 16),
        (2, 24),
        (2, 32),
        (3, 16),
        (4, 16),
    ] {
        for direction in [1, 2] {
            said += &said_of_cuts(cipher, length, direction);
        }
    }
    is_as_said(&cuts(), &said);
}

/// What is said of two cards: `<3>` stands for the list of eight recipes from 1 on with
/// every segment and mark 3, `<1, 2>` for that of sixteen, the first eight with mark 1,
/// the others with mark 2.
const SAID_OF_COMPARE: &str = "\
no bytes against no bytes, in 0 of room: answer 0, writes 0
  behind it: as it was
the example, in 12 of room: answer 0, writes 12
  00010101
  00010203
  00020102
  behind it: as it was
the example with more room, in 15 of room: answer 0, writes 12
  00010101
  00010203
  00020102
  behind it: as it was
the example in room one byte short, in 11 of room: answer 9, writes 0
  behind it: as it was
the example, the cards exchanged, in 12 of room: answer 0, writes 12
  00010102
  00010203
  00020101
  behind it: as it was
the example in other orders, with empty slots, in 12 of room: answer 0, writes 12
  00010101
  00010203
  00020102
  behind it: as it was
the same card, in 0 of room: answer 0, writes 0
  behind it: as it was
the same card shuffled, in 0 of room: answer 0, writes 0
  behind it: as it was
256 pairs with other contents, in 1024 of room: answer 0, writes 1024
<3>  behind it: as it was
256 pairs with other contents in room one byte short, in 1023 of room: answer 9, writes 0
  behind it: as it was
no pair in common, in 2048 of room: answer 0, writes 2048
<1, 2>  behind it: as it was
no pair in common in room one byte short, in 2047 of room: answer 9, writes 0
  behind it: as it was
an empty slot against no bytes, in 0 of room: answer 0, writes 0
  behind it: as it was
one record against no bytes, in 4 of room: answer 0, writes 4
  00010101
  behind it: as it was
one record against no bytes in no room, in 0 of room: answer 9, writes 0
  behind it: as it was
no bytes against one record, in 4 of room: answer 0, writes 4
  00010102
  behind it: as it was
another kind, in 4 of room: answer 0, writes 4
  00010103
  behind it: as it was
another rate, in 4 of room: answer 0, writes 4
  00010103
  behind it: as it was
another hold, in 4 of room: answer 0, writes 4
  00010103
  behind it: as it was
by recipe, then segment, in 20 of room: answer 0, writes 20
  00010201
  00012001
  00ff0301
  01000101
  ffff2001
  behind it: as it was
the first card bad, in 4 of room: answer 12, writes 0
  behind it: as it was
the second card bad, in 12 of room: answer 12, writes 0
  behind it: as it was
the second card bad, no room, in 0 of room: answer 12, writes 0
  behind it: as it was
both cards bad, in 2048 of room: answer 12, writes 0
  behind it: as it was
";

/// Eight recipes from this one on with every segment.
fn said_of_pairs(first_recipe: u16, mark: u8) -> String {
    let mut lines = String::new();
    for recipe in first_recipe..first_recipe + 8 {
        for segment in 1..=32 {
            lines += &format!("  {recipe:04x}{segment:02x}{mark:02x}\n");
        }
    }
    lines
}

#[test]
fn the_edge_cases_of_two_cards_compared_are_as_said() {
    let all_apart = said_of_pairs(1, 1) + &said_of_pairs(9, 2);
    let said = SAID_OF_COMPARE
        .replace("<3>", &said_of_pairs(1, 3))
        .replace("<1, 2>", &all_apart);
    is_as_said(&compare(), &said);
}
