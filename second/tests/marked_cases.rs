//! The marked cases C1 to C13, one table.
//! Follows document 01, 'Marked cases, proved together', and document 02, request 2,
//! for C13.

use second::e2::functions as e2;
use second::hierocrypt3::operations as h3;
use second::noekeon::{self, DESIGNERS, EARLIER};

/// What the documents say, C1 to C13, each as a list of numbers.
const SAID: [&[u32]; 13] = [
    &[0x07],
    &[0xFC],
    &[225],
    &[66],
    &[2863311531],
    &[1, 2, 3, 4, 5, 6, 7, 0],
    &[0, 5, 10, 15, 4, 9, 14, 3, 8, 13, 2, 7, 12, 1, 6, 11],
    &[0, 1, 1, 1, 1, 1, 0, 1],
    &[0, 1, 1, 1, 0, 0, 1, 1],
    &[5, 10, 14, 13],
    &[0xC4, 0x8B, 0xC8, 0x65],
    &[0xFFFFFFFF, 0xFFFFFFFF, 0xFFFFFFFF, 0],
    &[0x1, 0x1000101, 0x0, 0x1000101],
];

/// What the definitions give, in the same order.
fn given() -> [Vec<u32>; 13] {
    let up: [u8; 16] = std::array::from_fn(|i| i as u8);
    [
        numbers([h3::s(0x00)]),
        numbers([h3::s(0x01)]),
        numbers([e2::s(0)]),
        numbers([e2::s(1)]),
        numbers([e2::odd_inverse(3)]),
        numbers(e2::brl([0, 1, 2, 3, 4, 5, 6, 7])),
        numbers(e2::bp(up)),
        numbers(e2::p([1, 0, 0, 0, 0, 0, 0, 0])),
        numbers(e2::p([0, 0, 0, 0, 0, 0, 0, 1])),
        numbers(h3::p_n([1, 2, 4, 8])),
        numbers(h3::mds_l([0x01, 0, 0, 0])),
        numbers(noekeon::gamma([0; 4])),
        numbers(DESIGNERS.theta([0; 4], [1, 0, 0, 0])),
    ]
}

fn numbers<T: Into<u32>, const N: usize>(list: [T; N]) -> Vec<u32> {
    list.map(Into::into).to_vec()
}

#[test]
fn every_marked_case_holds() {
    for (case, (given, said)) in given().iter().zip(SAID).enumerate() {
        assert_eq!(given, said, "C{}", case + 1);
    }
}

/// What C13 said of number 3 in document 01 holds for number 4.
#[test]
fn the_case_of_the_earlier_rule_holds_still() {
    let theta = EARLIER.theta([0; 4], [1, 0, 0, 0]);
    assert_eq!(theta, [0x1, 0x101, 0x0, 0x101]);
}
