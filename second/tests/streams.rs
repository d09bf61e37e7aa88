//! CBC over streams: the definition, any cut with any rooms and retries, and the
//! edge cases.
//! Follows document 01, 'Refusal numbers' and 'Marked cases', its last paragraph, and
//! the definition of CBC in NIST SP 800-38A.

use second::bytes::{part, xor, Block};
use second::cipher::{decipher_block, encipher_block, set_up, Schedule};
use second::random::Random;
use second::refusal::Answer;
use second::replay::ciphers::LEGAL;
use second::replay::faults::any_schedule;
use second::stream::{feed, finish, start, Fed, Stream};

fn block_of(bytes: Vec<u8>) -> Block {
    bytes.try_into().unwrap()
}

/// C(j) = E(P(j) xor C(j-1)), one block after the other.
fn enciphered(schedule: &Schedule, first: Block, plain: &[u8]) -> Vec<u8> {
    let mut before = first;
    let mut out = Vec::new();
    for j in 0..plain.len() / 16 {
        let mixed = xor(part(plain, j), before);
        before = block_of(encipher_block(schedule, &mixed, &[0; 16]).out);
        out.extend(before);
    }
    out
}

/// P(j) = D(C(j)) xor C(j-1), from the last block to the first.
fn deciphered(schedule: &Schedule, first: Block, cipher: &[u8]) -> Vec<u8> {
    let chained = [&first[..], cipher].concat();
    let mut blocks = Vec::new();
    for j in (1..=cipher.len() / 16).rev() {
        let c: Block = part(&chained, j);
        let d = block_of(decipher_block(schedule, &c, &[0; 16]).out);
        blocks.push(xor(d, part(&chained, j - 1)));
    }
    blocks.reverse();
    blocks.concat()
}

fn whole_message(stream: &Stream, message: &[u8]) -> Fed {
    let back = feed(stream, message, &vec![0; message.len() + 16]);
    assert_eq!(back.answer, Answer::Done);
    back
}

/// The message in pieces at random, with refused tries in between; what was written,
/// and the state after it.
fn in_pieces(random: &mut Random, stream: &Stream, message: &[u8]) -> (Vec<u8>, Stream) {
    let (mut stream, mut out) = (stream.clone(), Vec::new());
    let mut rest = message;
    while !rest.is_empty() {
        let (piece, after) = rest.split_at(random.below(50).min(rest.len()));
        let needed = (stream.held_number() + piece.len()) / 16 * 16;
        while needed > 0 && random.below(3) == 0 {
            let short = random.bytes(random_short(needed));
            let refused = feed(&stream, piece, &short);
            assert_eq!((refused.answer, refused.written), (Answer::NoRoom, 0));
            assert_eq!((refused.out, &refused.stream), (short, &stream));
        }
        let room = random.bytes(needed + needed % 5);
        let back = feed(&stream, piece, &room);
        assert_eq!((back.answer, back.written), (Answer::Done, needed as u64));
        assert_eq!(back.out[needed..], room[needed..]);
        out.extend(&back.out[..needed]);
        (stream, rest) = (back.stream, after);
    }
    (out, stream)
}

fn random_short(needed: usize) -> usize {
    [0, needed / 2, needed - 1][needed / 16 % 3]
}

#[test]
fn streams_are_the_cbc_of_sp_800_38a() {
    let random = &mut Random::seeded(51);
    for (cipher, key_length) in LEGAL {
        let schedule = any_schedule(random, cipher, key_length);
        let first = random.array();
        let message = random.bytes(16 * 20);
        let forward = start(&schedule, 1, &first).stream;
        let back = whole_message(&forward, &message);
        let expected = enciphered(&schedule, first, &message);
        assert_eq!(back.out[..320], expected);
        assert_eq!(back.stream.chain, expected[304..]);
        let backward = start(&schedule, 2, &first).stream;
        let back = whole_message(&backward, &message);
        assert_eq!(back.out[..320], deciphered(&schedule, first, &message));
        assert_eq!(back.stream.chain, message[304..]);
    }
}

#[test]
fn any_cut_with_any_rooms_and_retries_is_the_single_call() {
    let random = &mut Random::seeded(52);
    for (cipher, key_length) in LEGAL {
        for direction in [1, 2] {
            for _ in 0..20 {
                let schedule = any_schedule(random, cipher, key_length);
                let stream = start(&schedule, direction, &random.bytes(16)).stream;
                let length = random.below(400);
                let message = random.bytes(length);
                let single = whole_message(&stream, &message);
                let (out, state) = in_pieces(random, &stream, &message);
                assert_eq!(out, single.out[..single.written as usize]);
                assert_eq!(state, single.stream);
                assert!(!state.is_bad());
                assert_eq!(length, out.len() + state.held_number());
            }
        }
    }
}

#[test]
fn a_second_stream_cut_otherwise_gives_the_message_back() {
    let random = &mut Random::seeded(53);
    for (cipher, key_length) in LEGAL {
        for _ in 0..20 {
            let key = random.bytes(key_length.into());
            let schedule = set_up(cipher.into(), &key).schedule;
            let first = random.bytes(16);
            let length = 16 * random.below(25);
            let message = random.bytes(length);
            let forward = start(&schedule, 1, &first).stream;
            let (cipher_text, forward) = in_pieces(random, &forward, &message);
            assert_eq!(finish(&forward).answer, Answer::Done);
            let backward = start(&schedule, 2, &first).stream;
            let (plain, backward) = in_pieces(random, &backward, &cipher_text);
            assert_eq!(finish(&backward).answer, Answer::Done);
            assert_eq!(plain, message);
            assert_eq!(forward.chain, backward.chain);
        }
    }
}

fn fresh(seed: u64) -> Stream {
    let random = &mut Random::seeded(seed);
    let schedule = any_schedule(random, 3, 16);
    start(&schedule, 1, &random.bytes(16)).stream
}

#[test]
fn pieces_of_7_and_9_write_0_and_16() {
    let seven = feed(&fresh(54), &[1; 7], &[]);
    assert_eq!((seven.answer, seven.written), (Answer::Done, 0));
    assert_eq!(seven.stream.count, 7);
    let nine = feed(&seven.stream, &[2; 9], &[0; 16]);
    assert_eq!((nine.answer, nine.written), (Answer::Done, 16));
    assert_eq!((nine.stream.count, nine.stream.held), (16, [0; 15]));
}

#[test]
fn a_piece_of_31_writes_16_and_holds_15() {
    let piece: Vec<u8> = (1..=31).collect();
    let back = feed(&fresh(55), &piece, &[0; 16]);
    assert_eq!((back.answer, back.written), (Answer::Done, 16));
    assert_eq!(back.stream.held, piece[16..]);
}

#[test]
fn sixteen_bytes_into_15_of_room_give_9_and_the_retry_succeeds() {
    let stream = fresh(56);
    let refused = feed(&stream, &[3; 16], &[0xAA; 15]);
    assert_eq!((refused.answer.number(), refused.written), (9, 0));
    assert_eq!((refused.out, &refused.stream), (vec![0xAA; 15], &stream));
    let retried = feed(&refused.stream, &[3; 16], &[0xAA; 16]);
    assert_eq!(retried, feed(&stream, &[3; 16], &[0xAA; 16]));
    assert_eq!((retried.answer, retried.written), (Answer::Done, 16));
}

#[test]
fn the_limit_passes_and_one_byte_more_gives_8() {
    let stream = fresh(57);
    let limit = 1_048_576;
    let over = feed(&stream, &vec![5; limit + 1], &vec![0; limit]);
    assert_eq!((over.answer.number(), over.written), (8, 0));
    assert_eq!(over.stream, stream);
    let full = feed(&stream, &vec![5; limit], &vec![0; limit]);
    assert_eq!((full.answer, full.written), (Answer::Done, limit as u64));
    assert_eq!(feed(&full.stream, &[5], &[]).answer.number(), 8);
    assert_eq!(feed(&full.stream, &[5; 32], &[]).answer.number(), 8);
    let empty = feed(&full.stream, &[], &[]);
    assert_eq!((empty.answer, &empty.stream), (Answer::Done, &full.stream));
    let finished = finish(&full.stream);
    assert_eq!(finished.answer, Answer::Done);
    assert_eq!(feed(&finished.stream, &[5], &[]).answer.number(), 7);
}

#[test]
fn the_limit_is_reached_in_pieces_too() {
    let mut stream = fresh(58);
    for length in [524_287, 524_288] {
        stream = whole_message(&stream, &vec![9; length]).stream;
    }
    assert_eq!(stream.count, 1_048_575);
    assert_eq!(feed(&stream, &[9; 2], &[0; 16]).answer.number(), 8);
    assert_eq!(feed(&stream, &[9; 1], &[0; 15]).answer.number(), 9);
    assert_eq!(feed(&stream, &[9; 1], &[0; 16]).answer, Answer::Done);
}

#[test]
fn an_empty_message_may_be_finished_and_a_finished_stream_is_closed() {
    let stream = fresh(59);
    let empty = feed(&stream, &[], &[]);
    assert_eq!((empty.answer, empty.written), (Answer::Done, 0));
    assert_eq!(empty.stream, stream);
    let finished = finish(&stream);
    assert_eq!(finished.answer, Answer::Done);
    let closed = Stream {
        closed: true,
        ..stream
    };
    assert_eq!(finished.stream, closed);
    assert_eq!(feed(&closed, &[], &[]).answer.number(), 7);
    assert_eq!(finish(&closed).answer.number(), 7);
}

#[test]
fn finish_with_any_byte_held_gives_10() {
    for held in 1..16 {
        let stream = whole_message(&fresh(60), &vec![1; 16 + held]).stream;
        let refused = finish(&stream);
        assert_eq!((refused.answer.number(), &refused.stream), (10, &stream));
        let filled = whole_message(&stream, &vec![1; 16 - held]).stream;
        assert_eq!(finish(&filled).answer, Answer::Done);
    }
}
