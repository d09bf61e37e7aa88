//! Each byte of a good record changed, records of every length, and records at random.
//! Follows document 02, request 5.

use super::told::Told;
use crate::random::Random;
use crate::replay::ciphers::LEGAL;
use crate::stream::Stream;

pub fn write(told: &mut Told, random: &mut Random) {
    each_byte(told, random);
    heads(told, random);
    counts(told, random);
    lengths(told, random);
    any_bytes(told, random);
    almost_good(told, random);
}

/// Whatever comes of a changed record is laid down, or refused as the stream of zeros.
fn each_byte(told: &mut Told, random: &mut Random) {
    for (kind, count, closed) in [
        ((1, 16), 0, 0),
        ((2, 24), 37, 0),
        ((3, 16), 31, 0),
        ((4, 16), 32, 1),
        ((1, 32), Stream::LIMIT, 0),
    ] {
        told.any_set_up(random, kind);
        let mut record = told.any_record(random, count);
        record[3] = closed;
        told.take_up_and_lay_down(random, &record);
        for place in 0..40 {
            for byte in [0, 1, 255, record[place] ^ 0x80, random.byte()] {
                let mut changed = record.clone();
                changed[place] = byte;
                if changed != record {
                    told.take_up_and_lay_down(random, &changed);
                }
            }
        }
    }
}

/// More values of the first four bytes.
fn heads(told: &mut Told, random: &mut Random) {
    told.any_set_up(random, (2, 16));
    let record = told.any_record(random, 48);
    for place in 0..4 {
        for byte in (0..35).chain([64, 127, 128, 129, 130, 144, 254, 255]) {
            let mut changed = record.clone();
            changed[place] = byte;
            told.take_up(&changed);
        }
    }
}

/// Counts about the limit and those that merely end in a legal one, with nothing held
/// and with what each would hold.
fn counts(told: &mut Told, random: &mut Random) {
    let limit = Stream::LIMIT as u32;
    let mut counts = vec![0, 1, 15, 16, 17, 255, 256, 65_536, u32::MAX, 1 << 31];
    counts.extend((0..18).flat_map(|by| [limit - by, limit + by]));
    counts.extend((21..32).map(|bit| 1 << bit));
    for (number, count) in counts.into_iter().enumerate() {
        if number % 10 == 0 {
            let kind = random.one_of(&LEGAL);
            told.any_set_up(random, kind);
        }
        let holding = told.any_record(random, count.into());
        let mut zeros = holding.clone();
        zeros[24..].fill(0);
        told.take_up_and_lay_down(random, &holding);
        told.take_up(&zeros);
    }
}

/// Fronts of good records, then zeros or other bytes behind them, and the longest.
fn lengths(told: &mut Told, random: &mut Random) {
    for kind in [(1, 24), (4, 16)] {
        told.any_set_up(random, kind);
        let record = told.any_record(random, 32);
        let zeros = [&record[..], &[0; 8]].concat();
        let marks = [record, random.bytes(8)].concat();
        for length in 0..=48 {
            told.take_up(&zeros[..length]);
            if length > 40 {
                told.take_up(&marks[..length]);
            }
        }
        told.take_up(&marks[1..41]);
    }
    let record = told.any_record(random, 5);
    for longer in [[&record[..], &record].concat(), record.repeat(205)] {
        let length = longer.len().min(8192);
        told.take_up(&longer[..length]);
    }
    told.take_up(&random.bytes(296));
    told.take_up(&[&record[..], &[0; 256]].concat());
}

fn any_bytes(told: &mut Told, random: &mut Random) {
    told.take_up(&[0; 40]);
    told.take_up(&[0xFF; 40]);
    for _ in 0..30 {
        told.take_up(&random.bytes(40));
    }
    for _ in 0..20 {
        let length = random.below(49);
        told.take_up(&random.bytes(length));
    }
}

/// Legal numbers at the front; any chain, any count about a block, any held bytes.
fn almost_good(told: &mut Told, random: &mut Random) {
    for kind in LEGAL {
        told.any_set_up(random, kind);
        for _ in 0..12 {
            let mut record = random.bytes(40);
            record[..2].copy_from_slice(&[kind.0, kind.1]);
            record[2] = random.one_of(&[1, 2]);
            record[3] = random.one_of(&[0, 0, 1]);
            record[4..7].fill(0);
            record[7] %= 40;
            let used = random.below(17);
            record[24 + used.min(15)..].fill(0);
            told.take_up_and_lay_down(random, &record);
            told.any_piece(random, 16);
        }
    }
}
