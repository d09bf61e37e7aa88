//! Readings laid down and taken up: the request sentence by sentence, then its reading,
//! the orders of refusal, the stops anywhere, and the errors easily made.
//! Follows document 02, request 5, document 01, 'Refusal numbers', and the readings.

mod record_by_fields;

use record_by_fields::{answer, causes, differ, taken_up, Cause, CAUSES};
use second::bytes::{part, Block};
use second::cbc;
use second::cipher::{set_up, Schedule};
use second::random::Random;
use second::reading::{lay_down, take_up};
use second::replay::ciphers::{ALL, LEGAL};
use second::replay::faults::{any_schedule, any_stream, bad_schedules, bad_streams};
use second::stream::{feed, finish, start, Stream};

const LIMIT: u64 = 1_048_576;

/// So many bytes, each of them another.
fn bytes(length: usize) -> Vec<u8> {
    (0..length).map(|i| 1 + (i % 255) as u8).collect()
}

#[track_caller]
fn fed(stream: &Stream, piece: &[u8]) -> Stream {
    let back = feed(stream, piece, &vec![0; piece.len() + 15]);
    assert_eq!(back.answer.number(), 0);
    back.stream
}

#[track_caller]
fn laid(stream: &Stream) -> Vec<u8> {
    let back = lay_down(stream, &[0xEE; 40]);
    assert_eq!((back.answer.number(), back.out.len()), (0, 40));
    back.out
}

#[track_caller]
fn taken(schedule: &Schedule, record: &[u8]) -> Stream {
    let back = take_up(schedule, record);
    assert_eq!(back.answer.number(), 0);
    back.stream
}

/// Taking up is refused with this number and returns as a refused start.
#[track_caller]
fn is_refused(schedule: &Schedule, record: &[u8], number: u8) {
    let back = take_up(schedule, record);
    assert_eq!((back.answer.number(), back.stream), (number, Stream::ZERO));
}

fn closed(stream: &Stream) -> Stream {
    Stream {
        closed: true,
        ..stream.clone()
    }
}

/// Open streams of every kind and of many counts, and closed ones where nothing is held.
fn streams(random: &mut Random) -> Vec<Stream> {
    let mut streams = Vec::new();
    let counts = (0..=33).chain([255, 256, 65_535, 65_536, LIMIT - 1, LIMIT]);
    for count in counts {
        for kind in LEGAL {
            let stream = any_stream(random, &[kind], count);
            if count % 16 == 0 {
                streams.push(closed(&stream));
            }
            streams.push(stream);
        }
    }
    streams
}

#[test]
fn a_stream_is_written_as_a_record_of_40_bytes() {
    let schedule = set_up(2, &bytes(24)).schedule;
    let begun = start(&schedule, 2, b"the first block.").stream;
    let stream = fed(&begun, &bytes(0x123));
    let expected = [
        &[2, 24, 2, 0][..],
        &[0x00, 0x00, 0x01, 0x23],
        &bytes(0x120)[0x110..],
        &bytes(0x123)[0x120..],
        &[0; 13],
    ];
    assert_eq!(laid(&stream), expected.concat());
    let ended = finish(&start(&schedule, 1, b"the first block.").stream).stream;
    let expected = [&[2, 24, 1, 1][..], &[0; 4], b"the first block.", &[0; 16]];
    assert_eq!(laid(&ended), expected.concat());
}

#[test]
fn each_field_of_the_stream_stands_in_its_place() {
    for stream in streams(&mut Random::seeded(201)) {
        let record = laid(&stream);
        let schedule = &stream.schedule;
        assert_eq!(record[..2], [schedule.cipher, schedule.key_length]);
        assert_eq!(record[2..4], [stream.direction, u8::from(stream.closed)]);
        assert_eq!(record[4..8], stream.count.to_be_bytes()[4..]);
        assert_eq!(record[8..24], stream.chain);
        assert_eq!(record[24..39], stream.held);
    }
}

#[test]
fn closed_is_0_or_1_and_the_last_held_byte_is_always_zero() {
    for stream in streams(&mut Random::seeded(202)) {
        let record = laid(&stream);
        assert!(record[3] <= 1 && record[39] == 0);
    }
}

#[test]
fn round_keys_are_not_in_it() {
    let random = &mut Random::seeded(203);
    for stream in streams(random) {
        let (cipher, key_length) = (stream.schedule.cipher, stream.schedule.key_length);
        let schedule = any_schedule(random, cipher, key_length);
        let other = Stream {
            schedule,
            ..stream.clone()
        };
        assert_eq!(laid(&other), laid(&stream));
    }
}

#[test]
fn laying_down_leaves_the_rest_of_the_output() {
    let stream = any_stream(&mut Random::seeded(204), &LEGAL, 21);
    for room in (40..100).chain([296, 8192]) {
        let before = bytes(room);
        let back = lay_down(&stream, &before);
        assert_eq!(back.answer.number(), 0);
        assert_eq!(back.out[..40], laid(&stream));
        assert_eq!(back.out[40..], before[40..]);
    }
}

/// The record is the same after the call, and so is what the stream goes on with.
#[test]
fn laying_down_does_not_change_the_stream() {
    for stream in streams(&mut Random::seeded(205)) {
        let before = stream.clone();
        lay_down(&stream, &[0; 50]);
        lay_down(&stream, &[0; 39]);
        assert_eq!(stream, before);
    }
}

#[test]
fn taking_it_up_needs_the_schedule_again() {
    for stream in streams(&mut Random::seeded(206)) {
        let record = laid(&stream);
        assert_eq!(taken(&stream.schedule, &record).schedule, stream.schedule);
        is_refused(&Schedule::ZERO, &record, 5);
    }
}

#[test]
fn another_key_of_the_same_length_can_not_be_noticed() {
    let random = &mut Random::seeded(207);
    for stream in streams(random) {
        let (cipher, length) = (stream.schedule.cipher, stream.schedule.key_length);
        let other = set_up(cipher.into(), &random.bytes(length.into())).schedule;
        let expected = Stream {
            schedule: other.clone(),
            ..stream.clone()
        };
        assert_eq!(taken(&other, &laid(&stream)), expected);
    }
}

#[test]
fn a_bad_schedule_is_refused_with_5_whatever_the_record() {
    let random = &mut Random::seeded(208);
    for schedule in bad_schedules(random, &ALL) {
        let good = laid(&any_stream(random, &LEGAL, 21));
        let own = [&[schedule.cipher, schedule.key_length], &good[2..]].concat();
        for record in [&good, &own, &good[1..], &[], &[0; 40], &[0xFF; 40]] {
            is_refused(&schedule, record, 5);
        }
    }
}

#[test]
fn a_wrong_length_is_15() {
    for stream in streams(&mut Random::seeded(209)) {
        let longer = [laid(&stream), vec![0; 40]].concat();
        for length in (0..=80).filter(|&length| length != 40) {
            is_refused(&stream.schedule, &longer[..length], 15);
        }
        let many = laid(&stream).repeat(7);
        is_refused(&stream.schedule, &many, 15);
        is_refused(&stream.schedule, &[&many[..], &[0; 16]].concat(), 15);
    }
}

/// Each value of one byte of a record; those that aren't named are refused with 15.
#[track_caller]
fn only(stream: &Stream, place: usize, legal: &[u8], others: &[u8]) {
    for byte in 0..=255 {
        let mut record = laid(stream);
        record[place] = byte;
        let number = take_up(&stream.schedule, &record).answer.number();
        let expected = match byte {
            byte if legal.contains(&byte) => 0,
            byte if others.contains(&byte) => 16,
            _ => 15,
        };
        assert_eq!(number, expected, "byte {place} is {byte}");
    }
}

#[test]
fn a_closed_byte_over_1_is_15() {
    let random = &mut Random::seeded(210);
    for kind in LEGAL {
        only(&any_stream(random, &[kind], 48), 3, &[0, 1], &[]);
        only(&any_stream(random, &[kind], 49), 3, &[0], &[]);
    }
}

#[test]
fn a_last_held_byte_that_is_not_zero_is_15() {
    let random = &mut Random::seeded(211);
    for count in 0..=33 {
        only(&any_stream(random, &LEGAL, count), 39, &[0], &[]);
    }
}

/// Among the ciphers of the record's key length another one is 16.
#[test]
fn a_cipher_that_would_make_a_bad_state_is_15() {
    let random = &mut Random::seeded(212);
    for kind in LEGAL {
        let with_length = |&(_, length): &(u8, u8)| length == kind.1;
        let ciphers = LEGAL.iter().copied().filter(with_length);
        let others: Vec<u8> = ciphers.map(|(cipher, _)| cipher).collect();
        only(&any_stream(random, &[kind], 21), 0, &[kind.0], &others);
    }
}

#[test]
fn a_key_length_that_would_make_a_bad_state_is_15() {
    let random = &mut Random::seeded(213);
    for kind in LEGAL {
        let of_cipher = |&(cipher, _): &(u8, u8)| cipher == kind.0;
        let lengths = LEGAL.iter().copied().filter(of_cipher);
        let others: Vec<u8> = lengths.map(|(_, length)| length).collect();
        only(&any_stream(random, &[kind], 21), 1, &[kind.1], &others);
    }
}

#[test]
fn a_direction_that_would_make_a_bad_state_is_15() {
    let random = &mut Random::seeded(214);
    for kind in LEGAL {
        only(&any_stream(random, &[kind], 21), 2, &[1, 2], &[]);
    }
}

#[test]
fn a_count_that_would_make_a_bad_state_is_15() {
    let random = &mut Random::seeded(215);
    let over = [
        1,
        5,
        15,
        16,
        17,
        1 << 20,
        (1 << 24) - 1,
        (1 << 32) - 1 - LIMIT,
    ];
    for (by, legal) in (0..40)
        .map(|by| (by, true))
        .chain(over.map(|by| (by, false)))
    {
        let count = if legal { LIMIT - by } else { LIMIT + by };
        let stream = any_stream(random, &LEGAL, 0);
        let mut record = laid(&stream);
        record[4..8].copy_from_slice(&count.to_be_bytes()[4..]);
        match legal {
            true => assert_eq!(taken(&stream.schedule, &record).count, count),
            false => is_refused(&stream.schedule, &record, 15),
        }
    }
}

#[test]
fn an_unused_held_byte_that_would_make_a_bad_state_is_15() {
    let random = &mut Random::seeded(216);
    for count in 0..=33 {
        for place in 0..15 {
            let stream = any_stream(random, &LEGAL, count);
            let mut record = laid(&stream);
            record[24 + place] ^= 0x80;
            match place < count as usize % 16 {
                true => assert_eq!(taken(&stream.schedule, &record).held, record[24..39]),
                false => is_refused(&stream.schedule, &record, 15),
            }
        }
    }
}

#[test]
fn closed_with_bytes_held_would_make_a_bad_state_and_is_15() {
    let random = &mut Random::seeded(217);
    for count in 0..=33 {
        let stream = any_stream(random, &LEGAL, count);
        let mut record = laid(&stream);
        record[3] = 1;
        match count % 16 {
            0 => assert_eq!(taken(&stream.schedule, &record), closed(&stream)),
            _ => is_refused(&stream.schedule, &record, 15),
        }
    }
}

/// A stream can have any chain.
#[test]
fn no_chain_makes_a_bad_state() {
    let random = &mut Random::seeded(218);
    for count in [0, 1, 16, LIMIT] {
        let stream = any_stream(random, &LEGAL, count);
        for chain in [[0; 16], [0xFF; 16], random.array()] {
            let mut record = laid(&stream);
            record[8..24].copy_from_slice(&chain);
            assert_eq!(taken(&stream.schedule, &record).chain, chain);
        }
    }
}

#[test]
fn cipher_or_key_length_that_differ_from_the_schedule_are_16() {
    let random = &mut Random::seeded(219);
    for stream in streams(random) {
        let of = (stream.schedule.cipher, stream.schedule.key_length);
        for kind in LEGAL {
            let schedule = any_schedule(random, kind.0, kind.1);
            match kind == of {
                true => drop(taken(&schedule, &laid(&stream))),
                false => is_refused(&schedule, &laid(&stream), 16),
            }
        }
    }
}

#[test]
fn refused_it_returns_as_a_refused_start() {
    let random = &mut Random::seeded(220);
    let stream = any_stream(random, &LEGAL, 21);
    let refused_start = start(&Schedule::ZERO, 1, &[0; 16]).stream;
    for (schedule, record) in [
        (&Schedule::ZERO, laid(&stream)),
        (&stream.schedule, vec![0; 40]),
        (&stream.schedule, vec![]),
    ] {
        let back = take_up(schedule, &record);
        assert_ne!(back.answer.number(), 0);
        assert_eq!(back.stream, refused_start);
        assert_eq!(lay_down(&back.stream, &[0; 40]).answer.number(), 6);
    }
}

#[test]
fn writing_refuses_6_then_9() {
    let random = &mut Random::seeded(221);
    let mut bad = bad_streams(random, &LEGAL);
    for schedule in bad_schedules(random, &ALL) {
        let stream = any_stream(random, &LEGAL, 21);
        bad.push(Stream { schedule, ..stream });
    }
    bad.push(Stream::ZERO);
    let good = streams(random).into_iter().map(|stream| (stream, false));
    for (stream, bad) in good.chain(bad.into_iter().map(|stream| (stream, true))) {
        for room in [0, 1, 16, 39, 40, 41, 80] {
            let before = bytes(room);
            let back = lay_down(&stream, &before);
            let number = match (bad, room < 40) {
                (true, _) => 6,
                (false, true) => 9,
                (false, false) => 0,
            };
            assert_eq!(back.answer.number(), number);
            assert_eq!(back.out == before, number != 0);
        }
    }
}

/// A closed stream is laid down too: it isn't a bad one.
#[test]
fn a_closed_stream_is_not_refused_and_stays_closed() {
    let random = &mut Random::seeded(222);
    for count in [0, 16, 32, LIMIT] {
        let stream = closed(&any_stream(random, &LEGAL, count));
        let back = taken(&stream.schedule, &laid(&stream));
        assert_eq!(back, stream);
        assert_eq!(feed(&back, &[], &[]).answer.number(), 7);
        assert_eq!(finish(&back).answer.number(), 7);
    }
}

#[test]
fn with_the_same_schedule_the_stream_taken_up_is_the_one_laid_down() {
    for stream in streams(&mut Random::seeded(223)) {
        assert_eq!(taken(&stream.schedule, &laid(&stream)), stream);
    }
}

#[test]
fn a_record_taken_up_and_laid_down_again_gives_itself() {
    let random = &mut Random::seeded(224);
    for stream in streams(random) {
        let (cipher, key_length) = (stream.schedule.cipher, stream.schedule.key_length);
        let schedule = any_schedule(random, cipher, key_length);
        let record = laid(&stream);
        assert_eq!(laid(&taken(&schedule, &record)), record);
    }
}

/// The message's bytes written, and its last state, out of the definition of CBC.
fn defined(begun: &Stream, message: &[u8]) -> (Vec<u8>, Block) {
    let whole = message.chunks_exact(16).map(|block| part(block, 0));
    let blocks: Vec<Block> = whole.collect();
    let schedule = &begun.schedule;
    let worked = match begun.direction {
        1 => cbc::encipher(|block| schedule.encipher(block), begun.chain, &blocks),
        _ => cbc::decipher(|block| schedule.decipher(block), begun.chain, &blocks),
    };
    let ciphertext = if begun.direction == 1 {
        &worked
    } else {
        &blocks
    };
    let chain = *ciphertext.last().unwrap_or(&begun.chain);
    (worked.concat(), chain)
}

/// The message in pieces at random with stops between, refused pieces among them: the
/// bytes written, joined, and the last state.
fn with_stops(random: &mut Random, begun: &Stream, message: &[u8]) -> (Vec<u8>, Stream) {
    let (mut stream, mut joined, mut rest) = (begun.clone(), Vec::new(), message);
    while !rest.is_empty() || random.below(2) == 0 {
        for _ in 0..random.below(3) {
            stream = taken(&begun.schedule, &laid(&stream));
        }
        let length = random.one_of(&[0, 1, 2, 7, 15, 16, 17, 31, 33]);
        let (piece, behind) = rest.split_at(length.min(rest.len()));
        if stream.held_number() + piece.len() >= 16 {
            let refused = feed(&stream, piece, &[0; 15]);
            assert_eq!((refused.answer.number(), &refused.stream), (9, &stream));
        }
        let back = feed(&stream, piece, &[0; 48]);
        assert_eq!(back.answer.number(), 0);
        joined.extend(&back.out[..back.written as usize]);
        (stream, rest) = (back.stream, behind);
    }
    (joined, stream)
}

#[test]
fn demand_3_holds_across_any_number_of_such_stops() {
    let random = &mut Random::seeded(225);
    for (cipher, key_length) in LEGAL {
        for direction in [1, 2] {
            for _ in 0..12 {
                let schedule = any_schedule(random, cipher, key_length);
                let begun = start(&schedule, direction, &random.bytes(16)).stream;
                let length = random.below(200);
                let message = random.bytes(length);
                let (joined, stream) = with_stops(random, &begun, &message);
                let (expected, chain) = defined(&begun, &message);
                assert_eq!((joined, stream.chain), (expected, chain));
                assert_eq!(stream, fed(&begun, &message));
                assert_eq!(finish(&stream), finish(&fed(&begun, &message)));
            }
        }
    }
}

#[test]
fn nor_does_a_stop_matter_on_a_state_that_no_message_led_to() {
    let random = &mut Random::seeded(226);
    for count in (0..40).chain([1000, LIMIT - 70]) {
        let stream = any_stream(random, &LEGAL, count);
        let message = random.bytes(70);
        let (_, with) = with_stops(random, &stream, &message);
        assert_eq!(with, fed(&stream, &message));
    }
}

/// Good records with so many of the faults in them, and the causes that they then have.
fn faulty(random: &mut Random, faults: &[Cause]) -> (Stream, Vec<u8>) {
    let stream = any_stream(random, &LEGAL, 21);
    let mut record = laid(&stream);
    for fault in faults {
        match fault {
            Cause::Cipher => record[0] = random.one_of(&[0, 5, 255]),
            Cause::KeyLength => record[1] = random.one_of(&[0, 15, 33]),
            Cause::Direction => record[2] = random.one_of(&[0, 3, 255]),
            Cause::ClosedByte => record[3] = random.one_of(&[2, 255]),
            Cause::ClosedWithBytesHeld => record[3] = 1,
            Cause::Count => record[4 + random.below(2)] |= 0x40,
            Cause::UnusedHeldByte => record[24 + 5 + random.below(10)] = random.mark(),
            Cause::LastHeldByte => record[39] = random.mark(),
            Cause::Length => record.push(0),
        }
    }
    (stream, record)
}

#[test]
fn all_causes_of_15_rank_alike() {
    let random = &mut Random::seeded(227);
    for first in CAUSES {
        for second in CAUSES {
            let (stream, record) = faulty(random, &[first, second]);
            assert!(causes(&record).contains(&second));
            is_refused(&stream.schedule, &record, 15);
        }
    }
}

#[test]
fn they_come_before_16() {
    let random = &mut Random::seeded(228);
    for cause in CAUSES {
        for (cipher, key_length) in LEGAL {
            let (_, record) = faulty(random, &[cause]);
            let schedule = any_schedule(random, cipher, key_length);
            assert_eq!(causes(&record), [cause]);
            is_refused(&schedule, &record, 15);
        }
    }
}

#[test]
fn an_illegal_cipher_or_key_length_is_15_even_where_it_also_differs_from_the_schedule() {
    let random = &mut Random::seeded(229);
    for stream in streams(random) {
        let schedule = &stream.schedule;
        for (place, byte) in [(0, 0), (0, 5), (1, 0), (1, 17), (1, 40)] {
            let mut record = laid(&stream);
            record[place] = byte;
            assert!(differ(schedule, &record));
            is_refused(schedule, &record, 15);
        }
        if schedule.key_length != 16 {
            let mut record = laid(&stream);
            record[0] = 3;
            is_refused(schedule, &record, 15);
        }
    }
}

/// Records of any bytes, of almost good ones, and good ones with a byte changed, against
/// the road field by field.
#[test]
fn any_record_is_taken_up_as_it_is_field_by_field() {
    let random = &mut Random::seeded(230);
    let mut numbers = [0; 17];
    for round in 0..20_000 {
        let count = random.one_of(&[0, 5, 15, 16, 31, 32, LIMIT]);
        let stream = any_stream(random, &LEGAL, count);
        let mut record = laid(&stream);
        for _ in 0..round % 4 {
            let place = random.below(40);
            record[place] = match random.below(2) {
                0 => random.byte(),
                _ => random.one_of(&[0, 1, 2, 3, 4, 16, 24, 32]),
            };
        }
        let length = random.one_of(&[40, 40, 40, 40, 40, 40, 40, 39, 41, 44]);
        record.resize(length, 0);
        let kind = random.one_of(&LEGAL);
        let schedule = match random.below(8) {
            0 => any_schedule(random, kind.0, kind.1),
            1 => Schedule::with(kind.0, 17, &[]),
            _ => stream.schedule,
        };
        let back = take_up(&schedule, &record);
        let expected = taken_up(&schedule, &record);
        assert_eq!((back.answer.number(), back.stream), expected, "{record:?}");
        numbers[usize::from(answer(&schedule, &record))] += 1;
    }
    assert!([0, 5, 15, 16].iter().all(|&number| numbers[number] > 500));
}

/// The count would be 0 in the lowest bytes, and the record taken up as a fresh one.
#[test]
fn a_count_is_not_cut_to_its_low_bytes() {
    let random = &mut Random::seeded(231);
    for bit in 21..32 {
        let stream = any_stream(random, &LEGAL, 0);
        let mut record = laid(&stream);
        record[4..8].copy_from_slice(&(1u32 << bit).to_be_bytes());
        is_refused(&stream.schedule, &record, 15);
    }
}

/// Sixteen held bytes would be a whole block.
#[test]
fn no_count_makes_the_last_held_byte_a_used_one() {
    let random = &mut Random::seeded(232);
    for count in [15, 16, 31, 32] {
        let stream = any_stream(random, &LEGAL, count);
        let mut record = laid(&stream);
        record[39] = 1;
        is_refused(&stream.schedule, &record, 15);
    }
}

/// Held bytes and chain exchanged give another record wherever a byte is held.
#[test]
fn the_chain_stands_before_the_held_bytes() {
    let random = &mut Random::seeded(233);
    let stream = any_stream(random, &LEGAL, 31);
    let record = laid(&stream);
    let exchanged = [&record[..8], &record[24..], &record[8..24]].concat();
    assert_ne!(take_up(&stream.schedule, &exchanged).stream, stream);
    assert_eq!(record[8..24], stream.chain);
}
