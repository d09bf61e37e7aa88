//! Each refusal exactly when the paper says, the first in order where several apply,
//! and nothing changed by it.
//! Follows document 01, 'Refusal numbers' and 'The two records', and document 02,
//! request 2, for number 4, and request 7, for blank keys.

use second::cipher::{decipher_block, encipher_block, schedule_of, set_up, used, Schedule};
use second::entry::entry;
use second::random::Random;
use second::replay::ciphers::{ALL, LEGAL};
use second::replay::faults::{any_schedule, any_stream, bad_schedules, bad_streams};
use second::replay::script::DIRECTIONS;
use second::seal;
use second::stream::{feed, finish, start, Stream};

/// All sets of broken rules, each as which of the `order` are broken, with the answer
/// that the order demands.
fn sets_of<const N: usize>(order: [u8; N]) -> Vec<([bool; N], u8)> {
    (0..1u32 << N)
        .map(|set| {
            let broken: [bool; N] = std::array::from_fn(|rule| set >> rule & 1 == 1);
            let first = (0..N).find(|&rule| broken[rule]);
            (broken, first.map_or(0, |rule| order[rule]))
        })
        .collect()
}

fn pick<T: Copy>(random: &mut Random, broken: bool, bad: &[T], good: T) -> T {
    if broken {
        random.one_of(bad)
    } else {
        good
    }
}

#[test]
fn set_up_refuses_1_then_2_then_17() {
    let random = &mut Random::seeded(41);
    for &cipher in ALL.numbers {
        for length in [0, 1, 15, 16, 17, 23, 24, 25, 31, 32, 33, 272, 280, 288] {
            for blank in [false, true] {
                let key = any_key(random, length, blank);
                let expected = match (cipher, length) {
                    (1 | 2, 16 | 24 | 32) | (3 | 4, 16) => 17 * u8::from(blank),
                    (1..=4, _) => 2,
                    _ => 1,
                };
                is_set_up(cipher, &key, expected);
            }
        }
    }
}

fn any_key(random: &mut Random, length: usize, blank: bool) -> Vec<u8> {
    match blank {
        true => vec![random.byte(); length],
        false => random.bytes(length),
    }
}

#[track_caller]
fn is_set_up(cipher: u64, key: &[u8], expected: u8) {
    let back = set_up(cipher, key);
    assert_eq!(back.answer.number(), expected, "{cipher} {}", key.len());
    if expected == 0 {
        assert_eq!(u64::from(back.schedule.cipher), cipher);
        assert_eq!(usize::from(back.schedule.key_length), key.len());
        assert!(!back.schedule.is_bad());
    } else {
        assert_eq!(back.schedule, Schedule::ZERO);
        assert!(back.schedule.is_bad());
    }
}

#[test]
fn a_key_of_any_one_byte_is_refused_with_17_at_every_legal_length_of_every_cipher() {
    for (cipher, key_length) in LEGAL {
        for byte in 0..=255 {
            is_set_up(cipher.into(), &vec![byte; key_length.into()], 17);
        }
    }
}

#[test]
fn a_key_in_which_one_byte_differs_is_taken_wherever_it_stands() {
    let random = &mut Random::seeded(50);
    for (cipher, key_length) in LEGAL {
        for place in 0..key_length.into() {
            for difference in [0x01, 0x80, 0xFF, random.mark()] {
                let mut key = any_key(random, key_length.into(), true);
                key[place] ^= difference;
                is_set_up(cipher.into(), &key, 0);
                assert_eq!(
                    set_up(cipher.into(), &key).schedule,
                    schedule_of(cipher, &key)
                );
                let back = entry(cipher.into(), 1, &key, &[0; 16], &[0; 16]);
                assert_eq!(back.answer.number(), 0);
            }
        }
    }
}

/// Two halves of a byte each, or bytes that take turns, are no blank key either.
#[test]
fn a_key_of_two_byte_values_is_taken_however_they_lie() {
    let random = &mut Random::seeded(51);
    for (cipher, key_length) in LEGAL {
        for _ in 0..200 {
            let values = [random.byte(), random.byte()];
            let length = usize::from(key_length);
            let key: Vec<u8> = (0..length).map(|_| random.one_of(&values)).collect();
            let blank = key.windows(2).all(|two| two[0] == two[1]);
            is_set_up(cipher.into(), &key, 17 * u8::from(blank));
        }
    }
}

#[test]
fn an_entry_that_refuses_a_blank_key_writes_nothing() {
    let random = &mut Random::seeded(52);
    for (cipher, key_length) in LEGAL {
        for byte in 0..=255 {
            let key = vec![byte; key_length.into()];
            let (direction, room) = (random.one_of(&[0, 1, 2, 3]), random.below(40));
            let (block, out) = (random.bytes(room % 2 + 15), random.bytes(room));
            let back = entry(cipher.into(), direction, &key, &block, &out);
            assert_eq!((back.answer.number(), back.out), (17, out));
        }
    }
}

/// Any value of a used byte is legal, and so is the same value for all of them.
#[test]
fn no_call_asks_whether_the_round_keys_of_a_schedule_are_blank() {
    for (cipher, key_length) in LEGAL {
        for byte in 0..=255 {
            let round_keys = vec![byte; used(cipher, key_length)];
            let schedule = Schedule::with(cipher, key_length, &round_keys);
            assert!(!schedule.is_bad());
            for call in [encipher_block, decipher_block] {
                assert_eq!(call(&schedule, &[7; 16], &[0; 16]).answer.number(), 0);
            }
            assert_eq!(start(&schedule, 1, &[7; 16]).answer.number(), 0);
            assert_eq!(seal::start(&schedule).answer.number(), 0);
        }
    }
}

/// The schedule of a blank key is good though no set-up gives it.
#[test]
fn the_schedule_of_a_blank_key_is_good() {
    for (cipher, key_length) in LEGAL {
        for byte in 0..=255 {
            let schedule = schedule_of(cipher, &vec![byte; key_length.into()]);
            assert!(!schedule.is_bad());
            let out = encipher_block(&schedule, &[7; 16], &[0; 16]).out;
            assert_eq!(decipher_block(&schedule, &out, &[0; 16]).out, [7; 16]);
        }
    }
}

#[test]
fn one_block_refuses_5_then_11_then_9() {
    let random = &mut Random::seeded(42);
    let bad = bad_schedules(random, &ALL);
    for (cipher, key_length) in LEGAL {
        for ([schedule, length, room], expected) in sets_of([5, 11, 9]) {
            let good = any_schedule(random, cipher, key_length);
            let schedule = match schedule {
                true => bad[random.below(bad.len())].clone(),
                false => good,
            };
            let block = pick(random, length, &[0, 1, 15, 17, 32], 16);
            let block = random.bytes(block);
            let room = pick(random, room, &[0, 1, 15], 19);
            let out = random.bytes(room);
            for call in [encipher_block, decipher_block] {
                let back = call(&schedule, &block, &out);
                assert_eq!(back.answer.number(), expected);
                assert_eq!(back.out == out, expected != 0);
                assert_eq!(back.out.len(), out.len());
                assert_eq!(back.out.get(16..), out.get(16..));
            }
        }
    }
}

#[test]
fn start_refuses_5_then_4_then_3() {
    let random = &mut Random::seeded(43);
    let bad = bad_schedules(random, &ALL);
    for (cipher, key_length) in LEGAL {
        for ([schedule, direction, first], expected) in sets_of([5, 4, 3]) {
            let good = any_schedule(random, cipher, key_length);
            let schedule = match schedule {
                true => bad[random.below(bad.len())].clone(),
                false => good,
            };
            let right = random.one_of(&[1, 2]);
            let direction = pick(random, direction, &[0, 3, 255, 257, 258, u64::MAX], right);
            let first = pick(random, first, &[0, 15, 17, 32], 16);
            let first = random.bytes(first);
            let back = start(&schedule, direction, &first);
            assert_eq!(back.answer.number(), expected);
            if expected != 0 {
                assert_eq!(back.stream, Stream::ZERO);
                assert!(back.stream.is_bad());
                continue;
            }
            assert_eq!(back.stream.schedule, schedule);
            assert_eq!(u64::from(back.stream.direction), direction);
            assert_eq!(back.stream.chain, first[..]);
            assert_eq!((back.stream.count, back.stream.closed), (0, false));
            assert_eq!(back.stream.held, [0; 15]);
            assert!(!back.stream.is_bad());
        }
    }
}

/// Counts from which the piece lengths below are too long, or not.
fn stream_breaking(random: &mut Random, bad: bool, closed: bool, over: bool) -> Stream {
    let count = if over { Stream::LIMIT } else { 32 };
    let stream = any_stream(random, &LEGAL, count);
    let direction = if bad { 0 } else { stream.direction };
    Stream {
        closed,
        direction,
        ..stream
    }
}

#[test]
fn a_piece_refuses_6_then_7_then_8_then_9() {
    let random = &mut Random::seeded(44);
    for _ in 0..20 {
        for ([bad, closed, over, room], expected) in sets_of([6, 7, 8, 9]) {
            let stream = stream_breaking(random, bad, closed, over);
            let piece = random.bytes(16);
            let room = pick(random, room, &[0, 1, 15], 17);
            let out = random.bytes(room);
            let back = feed(&stream, &piece, &out);
            assert_eq!(back.answer.number(), expected);
            assert_eq!(back.out == out, expected != 0);
            assert_eq!(back.out.get(16..), out.get(16..));
            assert_eq!(back.stream == stream, expected != 0);
            assert_eq!(back.written, if expected == 0 { 16 } else { 0 });
        }
    }
}

#[test]
fn finish_refuses_6_then_7_then_10() {
    let random = &mut Random::seeded(45);
    for ([bad, closed, held], expected) in sets_of([6, 7, 10]) {
        let stream = any_stream(random, &LEGAL, if held { 37 } else { 32 });
        let direction = if bad { 3 } else { stream.direction };
        let stream = Stream {
            closed,
            direction,
            ..stream
        };
        let closed_with_held = closed && held;
        let expected = if closed_with_held { 6 } else { expected };
        let back = finish(&stream);
        assert_eq!(back.answer.number(), expected);
        let closed = closed || expected == 0;
        assert_eq!(back.stream, Stream { closed, ..stream });
    }
}

#[test]
fn the_entry_refuses_1_then_2_then_17_then_4_then_11_then_9() {
    let random = &mut Random::seeded(46);
    for (cipher, key_length) in LEGAL {
        for (broken, expected) in sets_of([1, 2, 17, 4, 11, 9]) {
            let [number, key, blank, direction, block, room] = broken;
            let cipher = pick(random, number, ALL.illegal, cipher.into());
            let length = pick(random, key, &[0, 15, 17, 33], key_length.into());
            let right = random.one_of(&[1, 2]);
            let direction = pick(random, direction, &[0, 3, 257, 258], right);
            let block = pick(random, block, &[0, 15, 17, 32], 16);
            let room = pick(random, room, &[0, 1, 15], 16);
            let (key, block) = (any_key(random, length, blank), random.bytes(block));
            let out = random.bytes(room);
            let back = entry(cipher, direction, &key, &block, &out);
            assert_eq!(back.answer.number(), expected);
            assert_eq!(back.out == out, expected != 0);
        }
    }
}

#[test]
fn the_entry_knows_numbers_by_all_their_bytes() {
    for &cipher in ALL.numbers {
        for direction in DIRECTIONS {
            let back = entry(cipher, direction, b"0123456789abcdef", &[0; 16], &[0; 16]);
            let expected = match (cipher, direction) {
                (1..=4, 1 | 2) => 0,
                (1..=4, _) => 4,
                _ => 1,
            };
            assert_eq!(back.answer.number(), expected);
        }
    }
}

#[test]
fn every_cause_makes_a_schedule_bad() {
    let random = &mut Random::seeded(47);
    let bad = bad_schedules(random, &ALL);
    assert!(bad.iter().all(Schedule::is_bad));
    for (cipher, key_length) in LEGAL {
        let good = any_schedule(random, cipher, key_length);
        assert!(!good.is_bad());
        for place in 0..288 {
            let mut marked = Schedule::with(cipher, key_length, &[]);
            marked.round_keys[place] = random.mark();
            assert_eq!(marked.is_bad(), place >= used(cipher, key_length));
        }
        for number in 0..=255 {
            let marked = Schedule::with(number, key_length, &[]);
            let legal = matches!((number, key_length), (1 | 2, _) | (3 | 4, 16));
            assert_eq!(marked.is_bad(), !legal);
            let marked = Schedule::with(cipher, number, &[]);
            let legal = matches!((cipher, number), (1 | 2, 16 | 24 | 32) | (3 | 4, 16));
            assert_eq!(marked.is_bad(), !legal);
        }
    }
}

#[test]
fn every_cause_makes_a_state_bad() {
    let random = &mut Random::seeded(48);
    let mut bad = bad_streams(random, &LEGAL);
    for schedule in bad_schedules(random, &ALL) {
        let stream = any_stream(random, &LEGAL, 16);
        bad.push(Stream { schedule, ..stream });
    }
    for stream in bad {
        assert!(stream.is_bad());
        let out = random.bytes(64);
        let fed = feed(&stream, &[1; 16], &out);
        assert_eq!((fed.answer.number(), fed.written), (6, 0));
        assert_eq!((fed.out, &fed.stream), (out, &stream));
        let finished = finish(&stream);
        assert_eq!((finished.answer.number(), &finished.stream), (6, &stream));
    }
}

#[test]
fn a_state_is_good_up_to_each_edge() {
    let random = &mut Random::seeded(49);
    for count in [0, 1, 15, 16, 17, 31, Stream::LIMIT - 1, Stream::LIMIT] {
        let stream = any_stream(random, &LEGAL, count);
        assert!(!stream.is_bad());
        let held = stream.held_number();
        let closed = Stream {
            closed: true,
            ..stream.clone()
        };
        assert_eq!(closed.is_bad(), held > 0);
        for place in 0..15 {
            let mut marked = stream.clone();
            marked.held[place] ^= 0x80;
            assert_eq!(marked.is_bad(), place >= held);
        }
        for direction in 0..=255 {
            let turned = Stream {
                direction,
                ..stream.clone()
            };
            assert_eq!(turned.is_bad(), direction != 1 && direction != 2);
        }
    }
}
