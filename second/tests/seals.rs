//! Seals: the request sentence by sentence, then the readings, the orders of refusal,
//! the cut anywhere, and the errors easily made.
//! Follows document 02, request 3, document 01, 'Refusal numbers', and the readings.

mod cmac_by_bytes;

use second::bytes::{part, xor, Block};
use second::cipher::{encipher_block, set_up, Schedule};
use second::random::Random;
use second::replay::ciphers::{ALL, LEGAL};
use second::replay::faults::{any_schedule, any_seal, bad_schedules};
use second::seal::{check, feed, start, write, Seal};
use second::stream::Stream;

/// A fresh seal under some key of cipher 3.
fn fresh() -> Seal {
    start(&set_up(3, b"0123456789abcdef").schedule).seal
}

#[track_caller]
fn fed(seal: &Seal, piece: &[u8]) -> Seal {
    let back = feed(seal, piece);
    assert_eq!(back.answer.number(), 0);
    back.seal
}

/// So many bytes, each of them another.
fn bytes(length: usize) -> Vec<u8> {
    (0..length).map(|i| 1 + (i % 255) as u8).collect()
}

/// The seal out of a write into 16 bytes of room.
#[track_caller]
fn sealed(seal: &Seal) -> Block {
    let back = write(seal, &[0; 16]);
    assert_eq!((back.answer.number(), back.out.len()), (0, 16));
    part(&back.out, 0)
}

fn closed(seal: &Seal) -> Seal {
    Seal {
        closed: true,
        ..seal.clone()
    }
}

/// The CMAC out of the one block call and the steps of the standard over bytes.
fn defined(schedule: &Schedule, message: &[u8]) -> Block {
    let e = |block: Block| part(&encipher_block(schedule, &block, &[0; 16]).out, 0);
    cmac_by_bytes::cmac(&e, message)
}

/// Each call on the state is refused with this number, and leaves all as it was.
#[track_caller]
fn is_refused(seal: &Seal, number: u8) {
    for length in [0, 1, 16, 40] {
        let back = feed(seal, &bytes(length));
        assert_eq!((back.answer.number(), &back.seal), (number, seal));
    }
    for room in [0, 15, 16, 40] {
        let before = vec![0xEE; room];
        let back = write(seal, &before);
        assert_eq!((back.answer.number(), &back.seal), (number, seal));
        assert_eq!(back.out, before);
    }
    let mut given = vec![vec![], vec![0; 15], vec![0; 16], vec![0; 17]];
    if !seal.schedule.is_bad() {
        given.push(seal.sealed().to_vec());
    }
    for given in given {
        let back = check(seal, &given);
        assert_eq!((back.answer.number(), &back.seal), (number, seal));
        assert!(!back.yes);
    }
}

#[test]
fn the_seal_is_the_cmac_of_sp_800_38b_over_any_cipher_here() {
    let random = &mut Random::seeded(101);
    for (cipher, key_length) in LEGAL {
        let key = random.bytes(key_length.into());
        let schedule = set_up(cipher.into(), &key).schedule;
        for length in (0..70).chain([511, 512, 513]) {
            let message = random.bytes(length);
            let seal = fed(&start(&schedule).seal, &message);
            assert_eq!(sealed(&seal), defined(&schedule, &message));
        }
    }
}

#[test]
fn it_is_so_under_round_keys_that_come_from_no_key() {
    let random = &mut Random::seeded(102);
    for (cipher, key_length) in LEGAL {
        for length in [0, 16, 23, 48] {
            let schedule = any_schedule(random, cipher, key_length);
            let message = random.bytes(length);
            let seal = fed(&start(&schedule).seal, &message);
            assert_eq!(sealed(&seal), defined(&schedule, &message));
        }
    }
}

#[test]
fn pieces_go_in_and_a_16_byte_seal_comes_out_at_the_end() {
    let seal = fed(&fed(&fed(&fresh(), b"the message of"), b""), b" two pieces");
    let back = write(&seal, &[0xEE; 20]);
    let expected = defined(&seal.schedule, b"the message of two pieces");
    assert_eq!(back.answer.number(), 0);
    assert_eq!(back.out, [&expected[..], &[0xEE; 4]].concat());
}

#[test]
fn writing_leaves_the_rest_of_the_output() {
    let seal = fed(&fresh(), b"message");
    let expected = sealed(&seal);
    for room in 16..50 {
        let before = bytes(room);
        let back = write(&seal, &before);
        assert_eq!(back.out[..16], expected);
        assert_eq!(back.out[16..], before[16..]);
    }
}

#[test]
fn a_yes_means_exactly_that_the_given_bytes_are_the_seal() {
    for length in [0, 1, 15, 16, 17, 32, 40] {
        let seal = fed(&fresh(), &bytes(length));
        let right = sealed(&seal);
        let back = check(&seal, &right);
        assert_eq!((back.answer.number(), back.yes), (0, true));
        for bit in 0..128 {
            let wrong = u128::from_be_bytes(right) ^ (1 << bit);
            let back = check(&seal, &wrong.to_be_bytes());
            assert_eq!((back.answer.number(), back.yes), (0, false));
        }
        assert!(!check(&seal, &[0; 16]).yes);
        assert!(!check(&seal, &sealed(&fed(&seal, &[0]))).yes);
    }
}

#[test]
fn any_other_length_is_a_no() {
    let seal = fed(&fresh(), b"message");
    let right = sealed(&seal);
    let given = [right; 20].concat();
    for length in 0..=given.len() {
        let back = check(&seal, &given[..length]);
        assert_eq!((back.answer.number(), back.yes), (0, length == 16));
    }
}

#[test]
fn the_empty_message_has_a_seal() {
    for cipher in ALL.legal_numbers() {
        let schedule = set_up(cipher.into(), b"0123456789abcdef").schedule;
        let seal = start(&schedule).seal;
        let expected = defined(&schedule, &[]);
        assert_eq!(sealed(&seal), expected);
        assert_eq!(sealed(&fed(&seal, &[])), expected);
        assert!(check(&seal, &expected).yes);
    }
}

#[test]
fn the_limit_is_as_for_streams() {
    assert_eq!(Seal::LIMIT, Stream::LIMIT);
    let limit = 1_048_576;
    let over = feed(&fresh(), &vec![3; limit + 1]);
    assert_eq!((over.answer.number(), over.seal), (8, fresh()));
    let full = fed(&fresh(), &vec![3; limit]);
    assert_eq!((full.count, full.held_number()), (limit as u64, 16));
    assert_eq!(feed(&full, &[3]).answer.number(), 8);
    assert_eq!(fed(&full, &[]), full);
    let two = fed(&fed(&fresh(), &vec![3; limit - 1]), &[3]);
    assert_eq!(two, full);
    assert_eq!(sealed(&two), defined(&full.schedule, &vec![3; limit]));
}

#[test]
fn a_start_is_refused_with_5_and_returns_the_record_with_every_number_and_byte_zero() {
    let random = &mut Random::seeded(103);
    for schedule in bad_schedules(random, &ALL) {
        let back = start(&schedule);
        assert_eq!((back.answer.number(), back.seal), (5, Seal::ZERO));
    }
    is_refused(&Seal::ZERO, 6);
}

#[test]
fn a_start_holds_the_schedule_and_zeros() {
    let random = &mut Random::seeded(104);
    for (cipher, key_length) in LEGAL {
        let schedule = any_schedule(random, cipher, key_length);
        let back = start(&schedule);
        let expected = Seal {
            schedule,
            count: 0,
            chain: [0; 16],
            held: [0; 16],
            closed: false,
        };
        assert_eq!((back.answer.number(), back.seal), (0, expected));
    }
}

/// A good open state three bytes under the limit, with these causes of refusal.
fn with_causes(bad: bool, closed: bool) -> Seal {
    let random = &mut Random::seeded(105);
    let mut seal = any_seal(random, &LEGAL, Seal::LIMIT - 3);
    seal.held[15] = u8::from(bad);
    Seal { closed, ..seal }
}

#[test]
fn a_piece_is_refused_with_6_7_8_in_this_order() {
    for (bad, closed, length, number) in [
        (false, false, 3, 0),
        (false, false, 4, 8),
        (false, true, 3, 7),
        (false, true, 4, 7),
        (true, false, 3, 6),
        (true, false, 4, 6),
        (true, true, 3, 6),
        (true, true, 4, 6),
    ] {
        let seal = with_causes(bad, closed);
        let back = feed(&seal, &bytes(length));
        assert_eq!(back.answer.number(), number);
        assert_eq!(back.seal == seal, number != 0);
    }
}

#[test]
fn writing_the_seal_is_refused_with_6_7_then_9_with_less_than_16_bytes_of_room() {
    for (bad, closed, number) in [
        (false, false, 9),
        (false, true, 7),
        (true, false, 6),
        (true, true, 6),
    ] {
        let seal = with_causes(bad, closed);
        for room in 0..40 {
            let number = if room >= 16 && number == 9 { 0 } else { number };
            let back = write(&seal, &bytes(room));
            assert_eq!(back.answer.number(), number);
            assert_eq!(back.seal == seal, number != 0);
            assert_eq!(back.out == bytes(room), number != 0);
        }
    }
}

#[test]
fn the_check_is_refused_with_6_7_and_a_refused_check_says_no() {
    for (bad, closed, number) in [
        (false, false, 0),
        (false, true, 7),
        (true, false, 6),
        (true, true, 6),
    ] {
        let seal = with_causes(bad, closed);
        let given = seal.sealed();
        let back = check(&seal, &given);
        assert_eq!((back.answer.number(), back.yes), (number, number == 0));
        assert_eq!(back.seal == seal, number != 0);
    }
}

#[test]
fn when_not_refused_both_close_the_state_and_change_nothing_else_in_it() {
    let random = &mut Random::seeded(106);
    for count in 0..70 {
        let seal = any_seal(random, &LEGAL, count);
        let after = closed(&seal);
        let written = write(&seal, &[0; 16]);
        assert_eq!((written.answer.number(), &written.seal), (0, &after));
        let right = check(&seal, &written.out);
        assert_eq!((right.answer.number(), right.yes), (0, true));
        assert_eq!(right.seal, after);
        for wrong in [&[][..], &[0; 16], &written.out[..15]] {
            let back = check(&seal, wrong);
            assert_eq!((back.answer.number(), back.yes), (0, false));
            assert_eq!(back.seal, after);
        }
    }
}

#[test]
fn behind_either_every_call_answers_7() {
    let seal = fed(&fresh(), &bytes(21));
    is_refused(&write(&seal, &[0; 16]).seal, 7);
    is_refused(&check(&seal, &sealed(&seal)).seal, 7);
    is_refused(&check(&seal, &[]).seal, 7);
}

#[test]
fn a_refused_write_leaves_the_state_for_the_next_call() {
    let seal = fed(&fresh(), &bytes(21));
    let refused = write(&seal, &[0xEE; 15]);
    assert_eq!(refused.answer.number(), 9);
    assert_eq!((&refused.seal, refused.out), (&seal, vec![0xEE; 15]));
    assert!(check(&refused.seal, &sealed(&seal)).yes);
}

/// The chain and the held bytes of so many bytes, from the message itself.
fn expected(schedule: &Schedule, message: &[u8]) -> (Block, Block) {
    let held = match message.len() {
        0 => 0,
        length if length % 16 == 0 => 16,
        length => length % 16,
    };
    let (before, last) = message.split_at(message.len() - held);
    let mut chain = [0; 16];
    for i in 0..before.len() / 16 {
        let sum = xor(chain, part(before, i));
        chain = part(&encipher_block(schedule, &sum, &[0; 16]).out, 0);
    }
    let mut block = [0; 16];
    block[..held].copy_from_slice(last);
    (chain, block)
}

#[test]
fn a_seal_state_keeps_the_last_block_back() {
    for length in 0..100 {
        let message = bytes(length);
        let seal = fed(&fresh(), &message);
        let (chain, held) = expected(&seal.schedule, &message);
        assert_eq!((seal.chain, seal.held), (chain, held), "{length}");
        assert_eq!((seal.count, seal.closed), (length as u64, false));
    }
}

#[test]
fn it_holds_no_bytes_at_count_0_else_1_to_16_with_the_rest_a_multiple_of_16() {
    assert_eq!(fresh().held_number(), 0);
    for count in (1..100).chain([Seal::LIMIT - 1, Seal::LIMIT]) {
        let seal = Seal { count, ..fresh() };
        let held = seal.held_number() as u64;
        assert!((1..=16).contains(&held) && (count - held) % 16 == 0);
    }
}

#[test]
fn a_state_is_bad_if_the_schedule_is() {
    let random = &mut Random::seeded(107);
    for schedule in bad_schedules(random, &ALL) {
        for count in [0, 5, 16, 40] {
            let seal = any_seal(random, &LEGAL, count);
            assert!(!seal.is_bad());
            let schedule = schedule.clone();
            is_refused(&Seal { schedule, ..seal }, 6);
        }
    }
}

#[test]
fn a_state_is_bad_if_the_count_is_over_the_limit() {
    let random = &mut Random::seeded(108);
    assert!(!any_seal(random, &LEGAL, Seal::LIMIT).is_bad());
    for over in [1, 15, 16, 17, 1 << 20, 1 << 32, 1 << 63] {
        is_refused(&any_seal(random, &LEGAL, Seal::LIMIT + over), 6);
    }
    is_refused(&any_seal(random, &LEGAL, u64::MAX), 6);
    let at_zero = Seal {
        count: 1 << 32,
        ..fresh()
    };
    is_refused(&at_zero, 6);
}

#[test]
fn a_state_is_bad_if_an_unused_held_byte_is_not_zero() {
    let random = &mut Random::seeded(109);
    for count in 0..50 {
        let seal = any_seal(random, &LEGAL, count);
        assert!(!seal.is_bad());
        for place in 0..16 {
            let mut other = seal.clone();
            other.held[place] ^= 0x80;
            let used = place < seal.held_number();
            assert_eq!(other.is_bad(), !used, "{count} {place}");
            if !used {
                is_refused(&other, 6);
            }
        }
    }
}

#[test]
fn a_state_is_bad_if_the_chain_is_not_zero_while_the_count_is_16_or_less() {
    let random = &mut Random::seeded(110);
    for count in 0..40 {
        for place in 0..16 {
            let mut seal = any_seal(random, &LEGAL, count);
            seal.chain = [0; 16];
            assert!(!seal.is_bad());
            seal.chain[place] = 1;
            assert_eq!(seal.is_bad(), count <= 16, "{count} {place}");
            if count <= 16 {
                is_refused(&seal, 6);
            }
        }
    }
}

#[test]
fn a_closed_seal_state_with_bytes_held_is_not_bad() {
    let random = &mut Random::seeded(111);
    for count in (0..40).chain([Seal::LIMIT]) {
        let seal = closed(&any_seal(random, &LEGAL, count));
        assert!(!seal.is_bad());
        is_refused(&seal, 7);
    }
}

#[test]
fn a_check_of_another_length_is_not_refused_says_no_and_closes() {
    let seal = fed(&fresh(), &bytes(21));
    let right = [sealed(&seal); 2].concat();
    for length in [0, 1, 15, 17, 32] {
        let back = check(&seal, &right[..length]);
        assert_eq!((back.answer.number(), back.yes), (0, false));
        assert_eq!(back.seal, closed(&seal));
    }
}

#[test]
fn an_empty_piece_does_not_push_a_full_held_block_out() {
    for blocks in 1..4 {
        let seal = fed(&fresh(), &bytes(16 * blocks));
        assert_eq!(seal.held_number(), 16);
        assert_eq!(fed(&seal, &[]), seal);
        assert_eq!(fed(&seal, &[9]).held_number(), 1);
        assert_ne!(fed(&seal, &[9]).chain, seal.chain);
    }
}

#[test]
fn a_seal_holds_16_bytes_when_its_count_is_a_multiple_of_16_and_not_0() {
    for count in 0..=100 {
        let seal = fed(&fresh(), &bytes(count));
        let full = count % 16 == 0 && count != 0;
        assert_eq!(seal.held_number() == 16, full);
    }
}

/// The message in pieces at random, empty ones and refused ones among them.
fn in_pieces(random: &mut Random, seal: &Seal, message: &[u8]) -> Seal {
    let mut seal = seal.clone();
    let mut rest = message;
    let over = vec![0; Seal::LIMIT as usize + 1];
    while !rest.is_empty() || random.below(2) == 0 {
        if random.below(8) == 0 {
            let back = feed(&seal, &over[..over.len() - seal.count as usize]);
            assert_eq!((back.answer.number(), &back.seal), (8, &seal));
            let back = write(&seal, &[0; 15]);
            assert_eq!((back.answer.number(), &back.seal), (9, &seal));
        }
        let length = random.one_of(&[0, 1, 2, 7, 15, 16, 17, 31, 32, 33, 50]);
        let (piece, after) = rest.split_at(length.min(rest.len()));
        (seal, rest) = (fed(&seal, piece), after);
        assert!(!seal.is_bad());
    }
    seal
}

#[test]
fn the_cut_anywhere_does_not_matter() {
    let random = &mut Random::seeded(112);
    for (cipher, key_length) in LEGAL {
        for _ in 0..25 {
            let seal = start(&any_schedule(random, cipher, key_length)).seal;
            let length = random.below(200);
            let message = random.bytes(length);
            let single = fed(&seal, &message);
            let cut = in_pieces(random, &seal, &message);
            assert_eq!(cut, single);
            assert_eq!(sealed(&cut), defined(&seal.schedule, &message));
        }
    }
}

#[test]
fn nor_on_a_state_that_no_message_led_to() {
    let random = &mut Random::seeded(113);
    for count in (0..40).chain([1000, Seal::LIMIT - 70]) {
        let seal = any_seal(random, &LEGAL, count);
        let length = random.below(70);
        let message = random.bytes(length);
        let single = fed(&seal, &message);
        assert_eq!(in_pieces(random, &seal, &message), single);
    }
}

#[test]
fn every_cut_of_34_bytes_in_three_gives_the_single_call() {
    let message = bytes(34);
    let single = fed(&fresh(), &message);
    for first in 0..=34 {
        for second in first..=34 {
            let seal = fed(&fresh(), &message[..first]);
            let seal = fed(&seal, &message[first..second]);
            assert_eq!(fed(&seal, &message[second..]), single);
        }
    }
}

#[test]
fn byte_by_byte_is_the_single_call() {
    let mut seal = fresh();
    for length in 0..=70 {
        assert_eq!(seal, fed(&fresh(), &bytes(length)));
        seal = fed(&seal, &bytes(length + 1)[length..]);
    }
}

/// The seal keeps the schedule it was started with, byte for byte.
#[test]
fn no_call_changes_the_schedule() {
    let random = &mut Random::seeded(114);
    for (cipher, key_length) in LEGAL {
        let schedule = any_schedule(random, cipher, key_length);
        let seal = fed(&start(&schedule).seal, &random.bytes(50));
        assert_eq!(seal.schedule, schedule);
        assert_eq!(write(&seal, &[0; 16]).seal.schedule, schedule);
    }
}

/// The parts of CMAC that an error can stand in.
#[derive(Clone, Copy)]
struct Wrong {
    exchanged: bool,
    without_the_constant: bool,
    full_block_padded: bool,
}

const RIGHT: Wrong = Wrong {
    exchanged: false,
    without_the_constant: false,
    full_block_padded: false,
};

impl Wrong {
    fn doubled(self, block: Block) -> Block {
        let x = u128::from_be_bytes(block);
        let constant = if self.without_the_constant { 0 } else { 0x87 };
        let xored = if x >> 127 == 1 { constant } else { 0 };
        ((x << 1) ^ xored).to_be_bytes()
    }

    fn cmac(self, schedule: &Schedule, message: &[u8]) -> Block {
        let k1 = self.doubled(schedule.encipher([0; 16]));
        let mut keys = [k1, self.doubled(k1)];
        if self.exchanged {
            keys.reverse();
        }
        let whole = !message.is_empty() && message.len() % 16 == 0 && !self.full_block_padded;
        let mut blocks = message.to_vec();
        if !whole {
            blocks.push(0x80);
            blocks.resize((blocks.len() + 15) / 16 * 16, 0);
        }
        let number = blocks.len() / 16;
        let mut chain = [0; 16];
        for i in 0..number {
            let mut m = part(&blocks, i);
            if i + 1 == number {
                m = xor(m, keys[usize::from(!whole)]);
            }
            chain = schedule.encipher(xor(chain, m));
        }
        chain
    }
}

/// Schedules whose L begins with each pair of bits.
fn schedules() -> Vec<(u8, Schedule)> {
    let random = &mut Random::seeded(115);
    let mut found = Vec::new();
    for bits in 0..4 {
        for cipher in ALL.legal_numbers() {
            let schedules = std::iter::repeat_with(|| any_schedule(random, cipher, 16));
            let begins = |schedule: &Schedule| schedule.encipher([0; 16])[0] >> 6 == bits;
            found.push((bits, schedules.take(1000).find(begins).unwrap()));
        }
    }
    found
}

/// Whether the wrong program gives another seal; the right one gives ours.
fn differs(wrong: Wrong, schedule: &Schedule, length: usize) -> bool {
    let message = bytes(length);
    let ours = sealed(&fed(&start(schedule).seal, &message));
    assert_eq!(RIGHT.cmac(schedule, &message), ours);
    wrong.cmac(schedule, &message) != ours
}

const LENGTHS: [usize; 8] = [0, 1, 15, 16, 17, 31, 32, 33];

#[test]
fn k1_and_k2_exchanged_give_another_seal() {
    let wrong = Wrong {
        exchanged: true,
        ..RIGHT
    };
    for (_, schedule) in schedules() {
        assert!(LENGTHS.iter().all(|&n| differs(wrong, &schedule, n)));
    }
}

/// K1 is wrong if L begins with a one, K2 if either of the first two bits is a one.
#[test]
fn doubling_without_the_constant_gives_another_seal_where_a_one_falls_out() {
    let wrong = Wrong {
        without_the_constant: true,
        ..RIGHT
    };
    for (bits, schedule) in schedules() {
        for length in LENGTHS {
            let complete = length % 16 == 0 && length != 0;
            let falls_out = if complete { bits >= 2 } else { bits != 0 };
            assert_eq!(differs(wrong, &schedule, length), falls_out);
        }
    }
}

#[test]
fn a_full_last_block_padded_gives_another_seal() {
    let wrong = Wrong {
        full_block_padded: true,
        ..RIGHT
    };
    for (_, schedule) in schedules() {
        for length in LENGTHS {
            let full = length % 16 == 0 && length != 0;
            assert_eq!(differs(wrong, &schedule, length), full);
        }
    }
}

/// A message and the same padded by hand have the same blocks, but not the same seal.
#[test]
fn padding_by_hand_gives_another_seal() {
    for length in 0..16 {
        let message = bytes(length);
        let padded = [&message[..], &[0x80], &vec![0; 15 - length]].concat();
        let seals = [message, padded].map(|message| sealed(&fed(&fresh(), &message)));
        assert_ne!(seals[0], seals[1]);
    }
}

/// With the block pushed out and nothing held, the end would be a padded empty block.
#[test]
fn a_full_block_pushed_out_at_once_gives_another_state_and_seal() {
    let seal = fed(&fresh(), &bytes(32));
    let sum = xor(seal.chain, seal.held);
    let pushed_out = Seal {
        chain: seal.schedule.encipher(sum),
        held: [0; 16],
        ..seal.clone()
    };
    assert_ne!(pushed_out, seal);
    let e = |block| seal.schedule.encipher(block);
    let wrong = second::cmac::ended(e, pushed_out.chain, &[]);
    assert_ne!(wrong, sealed(&seal));
}

/// A comparison up to the shorter of the two would say yes.
#[test]
fn a_check_of_15_right_bytes_is_a_no() {
    let seal = fed(&fresh(), &bytes(40));
    let right = sealed(&seal);
    let alike = right[..15].iter().zip(&right).all(|(a, b)| a == b);
    assert!(alike && !check(&seal, &right[..15]).yes);
    assert!(!check(&seal, &[]).yes);
}

#[test]
fn held_bytes_are_zero_again_behind_the_used_ones() {
    let holding = fed(&fresh(), &[0xEE; 16]);
    assert_eq!(holding.held, [0xEE; 16]);
    for held in 1..=16 {
        let after = fed(&holding, &vec![0xDD; held]);
        assert_eq!(after.held_bytes(), vec![0xDD; held]);
        assert!(after.held[held..].iter().all(|&byte| byte == 0));
    }
}

#[test]
fn a_count_near_the_end_of_its_64_bits_does_not_run_over() {
    let random = &mut Random::seeded(116);
    for under in [0, 1, 15, 16] {
        let seal = any_seal(random, &LEGAL, u64::MAX - under);
        let back = feed(&seal, &[0; 32]);
        assert_eq!((back.answer.number(), back.seal), (6, seal));
    }
}
