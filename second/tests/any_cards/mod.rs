//! Cards at random, of records that a test draws.
//! Follows document 02, request 1.

use second::random::Random;

/// A good card of fewer slots than `bound`; of those, one in `one_in` and each with a pair
/// that is there already is empty.
pub fn good_card(
    random: &mut Random,
    any_record: fn(&mut Random) -> Vec<u8>,
    bound: usize,
    one_in: usize,
) -> Vec<u8> {
    let mut slots: Vec<Vec<u8>> = Vec::new();
    for _ in 0..random.below(bound) {
        let record = any_record(random);
        let there = slots.iter().any(|slot| slot[..3] == record[..3]);
        let empty = there || random.below(one_in) == 0;
        slots.push(if empty { vec![0; 16] } else { record });
    }
    slots.concat()
}

/// The card with up to two bytes changed, or cut; one of no bytes lengthened.
pub fn damaged(random: &mut Random, mut card: Vec<u8>) -> Vec<u8> {
    for _ in 0..random.below(3) {
        match card.len() {
            0 => card.push(random.byte()),
            length if random.below(8) == 0 => card.truncate(length - 1),
            length => card[random.below(length)] = random.byte(),
        }
    }
    card
}
