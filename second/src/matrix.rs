//! Square matrices over a field of bytes: product with a vector, and the inverse
//! by Gaussian elimination. A matrix of bits is one whose entries are 0 and 1.
//! Serves document 002, sections 3.2 and 3.7 to 3.10.

use crate::field::Field;

pub type Matrix<const N: usize> = [[u8; N]; N];

pub fn apply<const N: usize>(field: Field, matrix: &Matrix<N>, x: [u8; N]) -> [u8; N] {
    std::array::from_fn(|row| {
        (0..N).fold(0, |sum, column| {
            sum ^ field.times(matrix[row][column], x[column])
        })
    })
}

pub fn product<const N: usize>(field: Field, a: &Matrix<N>, b: &Matrix<N>) -> Matrix<N> {
    std::array::from_fn(|row| {
        std::array::from_fn(|column| {
            (0..N).fold(0, |sum, k| sum ^ field.times(a[row][k], b[k][column]))
        })
    })
}

pub fn unit<const N: usize>() -> Matrix<N> {
    std::array::from_fn(|row| std::array::from_fn(|column| u8::from(row == column)))
}

/// The inverse, or nothing where the rows depend on each other.
pub fn inverse<const N: usize>(field: Field, matrix: &Matrix<N>) -> Option<Matrix<N>> {
    let (mut left, mut right) = (*matrix, unit());
    for column in 0..N {
        let pivot = (column..N).find(|&row| left[row][column] != 0)?;
        left.swap(column, pivot);
        right.swap(column, pivot);
        let factor = field.reciprocal(left[column][column])?;
        left[column] = scaled(field, factor, &left[column]);
        right[column] = scaled(field, factor, &right[column]);
        for row in (0..N).filter(|&row| row != column) {
            let factor = left[row][column];
            left[row] = sum(&left[row], &scaled(field, factor, &left[column]));
            right[row] = sum(&right[row], &scaled(field, factor, &right[column]));
        }
    }
    Some(right)
}

fn scaled<const N: usize>(field: Field, factor: u8, row: &[u8; N]) -> [u8; N] {
    row.map(|entry| field.times(factor, entry))
}

fn sum<const N: usize>(a: &[u8; N], b: &[u8; N]) -> [u8; N] {
    std::array::from_fn(|i| a[i] ^ b[i])
}
