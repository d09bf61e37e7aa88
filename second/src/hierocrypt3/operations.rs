//! Hierocrypt-3: the fundamental operations and their inverses.
//! Follows document 002, sections 3.2 and 3.6 to 3.11, as document 01,
//! 'Hierocrypt-3', states them. Every table and inverse here is computed.

use crate::bytes::{part, Block};
use crate::field::Field;
use crate::matrix::{apply, inverse, Matrix};
use std::rc::Rc;

pub const FIELD: Field = Field::modulo(0b1_0110_0011);

/// Bit i of the permuted byte is this bit of x; bit 1 is the highest.
const PERMUTATION: [u32; 8] = [3, 7, 5, 8, 6, 2, 4, 1];
const POWER: u32 = 247;
const ADDED: u8 = 0x07;

const MDS_L_FIRST_ROW: [u8; 4] = [0xC4, 0x65, 0xC8, 0x8B];

pub const A: Matrix<4> = [[1, 0, 1, 0], [1, 1, 0, 1], [1, 1, 1, 0], [0, 1, 0, 1]];
pub const B: Matrix<4> = [[1, 1, 0, 1], [1, 1, 1, 0], [1, 1, 1, 1], [1, 0, 1, 0]];
pub const C: Matrix<4> = [[1, 1, 1, 1], [0, 1, 1, 1], [0, 0, 1, 1], [1, 1, 1, 0]];
const MDS_H_ROWS: [[Matrix<4>; 4]; 4] = [[A, A, B, C], [C, A, A, B], [B, C, A, A], [A, B, C, A]];

pub const P: Matrix<4> = [[1, 0, 1, 0], [0, 1, 0, 1], [0, 1, 1, 1], [1, 0, 1, 1]];

/// What the rules give, computed once in each thread.
pub struct Tables {
    pub s: [u8; 256],
    pub s_inverse: [u8; 256],
    pub mds_l: Matrix<4>,
    pub mds_l_inverse: Matrix<4>,
    pub mds_h: Matrix<16>,
    pub mds_h_inverse: Matrix<16>,
    pub p_inverse: Matrix<4>,
    pub a_inverse: Matrix<4>,
    pub c_inverse: Matrix<4>,
}

thread_local! {
    static TABLES: Rc<Tables> = Rc::new(tables_by_rule());
}

pub fn tables() -> Rc<Tables> {
    TABLES.with(Rc::clone)
}

fn tables_by_rule() -> Tables {
    let s: [u8; 256] = std::array::from_fn(|x| s_by_rule(x as u8));
    let mds_l = std::array::from_fn(rotated);
    let mds_h = std::array::from_fn(|row| {
        std::array::from_fn(|column| MDS_H_ROWS[row / 4][column / 4][row % 4][column % 4])
    });
    Tables {
        s,
        s_inverse: inverted(&s),
        mds_l,
        mds_l_inverse: inverted_matrix(&mds_l),
        mds_h,
        mds_h_inverse: inverted_matrix(&mds_h),
        p_inverse: inverted_matrix(&P),
        a_inverse: inverted_matrix(&A),
        c_inverse: inverted_matrix(&C),
    }
}

fn s_by_rule(x: u8) -> u8 {
    FIELD.power(permuted(x), POWER) ^ ADDED
}

fn permuted(x: u8) -> u8 {
    PERMUTATION
        .iter()
        .fold(0, |y, &bit| y << 1 | (x >> (8 - bit) & 1))
}

/// The first row of mds_L rotated to the right.
fn rotated(by: usize) -> [u8; 4] {
    std::array::from_fn(|column| MDS_L_FIRST_ROW[(column + 4 - by) % 4])
}

fn inverted(table: &[u8; 256]) -> [u8; 256] {
    std::array::from_fn(|y| {
        let x = table.iter().position(|&value| usize::from(value) == y);
        x.expect("s is a permutation") as u8
    })
}

fn inverted_matrix<const N: usize>(matrix: &Matrix<N>) -> Matrix<N> {
    inverse(FIELD, matrix).expect("the matrix has an inverse")
}

pub fn s(x: u8) -> u8 {
    tables().s[usize::from(x)]
}

pub fn s_inverse(x: u8) -> u8 {
    tables().s_inverse[usize::from(x)]
}

pub fn mds_l(x: [u8; 4]) -> [u8; 4] {
    apply(FIELD, &tables().mds_l, x)
}

pub fn mds_l_inverse(x: [u8; 4]) -> [u8; 4] {
    apply(FIELD, &tables().mds_l_inverse, x)
}

pub fn mds_h(x: Block) -> Block {
    apply(FIELD, &tables().mds_h, x)
}

pub fn mds_h_inverse(x: Block) -> Block {
    apply(FIELD, &tables().mds_h_inverse, x)
}

/// P^(n) on four parts of L / 4 bytes each.
pub fn p_n<const L: usize>(x: [u8; L]) -> [u8; L] {
    on_parts(&P, x)
}

pub fn p_n_inverse<const L: usize>(x: [u8; L]) -> [u8; L] {
    on_parts(&tables().p_inverse, x)
}

fn on_parts<const L: usize>(matrix: &Matrix<4>, x: [u8; L]) -> [u8; L] {
    let width = L / 4;
    std::array::from_fn(|i| {
        let lane = std::array::from_fn(|number| x[width * number + i % width]);
        apply(FIELD, matrix, lane)[i / width]
    })
}

pub fn m5e(x: [u8; 8]) -> [u8; 8] {
    on_halves(&A, &C, x)
}

/// M_B3, the inverse of M_5E.
pub fn mb3(x: [u8; 8]) -> [u8; 8] {
    on_halves(&tables().a_inverse, &tables().c_inverse, x)
}

fn on_halves(first: &Matrix<4>, last: &Matrix<4>, x: [u8; 8]) -> [u8; 8] {
    let halves = [
        apply(FIELD, first, part(&x, 0)),
        apply(FIELD, last, part(&x, 1)),
    ];
    std::array::from_fn(|i| halves[i / 4][i % 4])
}

pub fn f_sigma(x: [u8; 8]) -> [u8; 8] {
    p_n(x.map(s))
}
