//! Random calls of all kinds: good ones, ones with a blank key, and ones with any of their
//! parts damaged.

use second::random::Random;

/// Legal pairs of cipher and key length.
pub const KINDS: [(u64, usize); 8] = [
    (1, 16),
    (1, 24),
    (1, 32),
    (2, 16),
    (2, 24),
    (2, 32),
    (3, 16),
    (4, 16),
];

const LONGEST: usize = 40;

#[derive(Debug)]
pub struct Call {
    pub cipher: u64,
    pub direction: u64,
    pub key: Vec<u8>,
    pub block: Vec<u8>,
    /// The output before the call.
    pub out: Vec<u8>,
}

impl Call {
    pub fn random(random: &mut Random) -> Call {
        let (cipher, key_length) = random.one_of(&KINDS);
        let room = 16 + random.below(LONGEST - 15);
        let mut call = Call {
            cipher,
            direction: random.one_of(&[1, 2]),
            key: some_bytes(random, key_length),
            block: some_bytes(random, 16),
            out: some_bytes(random, room),
        };
        if random.below(2) == 0 {
            call.damage(random);
        }
        call
    }

    /// Draws about one part in three anew; the call may stay good.
    fn damage(&mut self, random: &mut Random) {
        if random.below(3) == 0 {
            self.cipher = some_number(random);
        }
        if random.below(3) == 0 {
            self.direction = some_number(random);
        }
        for bytes in [&mut self.key, &mut self.block, &mut self.out] {
            if random.below(3) == 0 {
                let length = some_length(random);
                *bytes = some_bytes(random, length);
            }
        }
    }
}

/// Random bytes, the same byte throughout, or in all places but one.
fn some_bytes(random: &mut Random, length: usize) -> Vec<u8> {
    match random.below(16) {
        0 => vec![0; length],
        1 => vec![0xFF; length],
        2 => vec![random.byte(); length],
        3 => but_one(random, length),
        _ => random.bytes(length),
    }
}

fn but_one(random: &mut Random, length: usize) -> Vec<u8> {
    let mut bytes = vec![random.byte(); length];
    if length > 0 {
        bytes[random.below(length)] = random.byte();
    }
    bytes
}

/// A number that is legal or next to a legal one, such a number made wide or moved
/// to higher bytes, the greatest numbers, or any.
fn some_number(random: &mut Random) -> u64 {
    let small = random.below(6) as u64;
    match random.below(6) {
        0 | 1 => small,
        2 => small | 1 << (8 + random.below(56)),
        3 => small << (8 * random.below(8)),
        4 => u64::MAX - small,
        _ => random.number(),
    }
}

/// A length up to `LONGEST`, one beside a legal one, or one that ends in a legal byte.
fn some_length(random: &mut Random) -> usize {
    match random.below(4) {
        0 => random.one_of(&[15, 16, 17, 23, 24, 25, 31, 32, 33]),
        1 => 256 + random.one_of(&[0, 15, 16, 24, 32]),
        _ => random.below(LONGEST + 1),
    }
}
