//! Good and bad shapes.

use crate::second::call::Shape;
use crate::second::shapes::{CODES, PRIMES};

/// The last code, and one past it.
const LAST_CODE: u64 = CODES[CODES.len() - 1];
pub const NO_CODE: u64 = LAST_CODE + 1;

/// Every code, 0, one past the last and the most.
pub fn edge_codes() -> impl Iterator<Item = u64> {
    [0].into_iter().chain(CODES).chain([NO_CODE, u64::MAX])
}

/// These, and some that look like good ones when cut short.
pub fn some_codes() -> impl Iterator<Item = u64> {
    edge_codes().chain([(1 << 8) + 1, (1 << 32) + 1, (1 << 32) + LAST_CODE])
}

// Good and bad parameters. The large ones look like good ones when cut short.
pub const SOME_P: [u64; 24] = [
    0, 1, 2, 3, 4, 6, 7, 8, 9, 15, 21, 25, 27, 30, 31, 32, 33, 35, 37, 67, 0x103, 0x1_0005, 0x1_0000_0005,
    u64::MAX,
];
pub const SOME_CELLS: [u64; 8] = [0, 1, 2, 4096, 4097, 0x1_0001, 0x1_0000_0001, u64::MAX];

/// The cell sizes of rebuilds, searches and runs.
pub const SMALL_CELLS: [u64; 6] = [1, 2, 3, 7, 31, 64];
pub const LARGE_CELLS: [u64; 4] = [512, 513, 1000, 4096];

/// Every code with every p.
pub fn codes() -> impl Iterator<Item = (u64, u64)> {
    CODES.into_iter().flat_map(|code| PRIMES.map(|p| (code, p)))
}

/// The rows and columns that a code would have with any p.
pub fn sides(code: u64, p: u64) -> [u64; 2] {
    match code {
        3 => [p, p],
        4 => [p.wrapping_sub(1), p.wrapping_add(2)],
        _ => [p.wrapping_sub(1), p.wrapping_add(1)],
    }
}

/// As many cells as that makes.
pub fn cell_count(code: u64, p: u64) -> u64 {
    let [rows, columns] = sides(code, p);
    rows.wrapping_mul(columns)
}

/// Every p up to past 128 with cells of one byte, and the length that would be right.
pub fn any_p() -> impl Iterator<Item = (Shape, u64)> {
    (0..=133).flat_map(|p| CODES.map(|code| (Shape::new(code, p, 1), cell_count(code, p))))
}

/// Code, p and cell size good, at 0, one past the last and at the most, in all
/// combinations.
pub fn edge_shapes() -> impl Iterator<Item = Shape> {
    let codes_and_p = edge_codes().flat_map(|code| [0, 5, 32, u64::MAX].map(move |p| (code, p)));
    codes_and_p.flat_map(|(code, p)| [0, 3, 4097, u64::MAX].map(|cell| Shape::new(code, p, cell)))
}

/// Numbers past the end, most of them made of a good one. A good one and 256 may still
/// be inside.
pub fn outside(good: u64, end: u64) -> Vec<u64> {
    let far = [8, 16, 32, 52, 55, 58, 60, 61, 62, 63].map(|bits| good + (1 << bits));
    [end, end + 1, u64::MAX - 1, u64::MAX].into_iter().chain(far).collect()
}
