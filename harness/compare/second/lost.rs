//! The second program's rebuild, by the school's method: the equations as the rows
//! of a matrix over the lost cells, with the sum of the survivors at the right.

use crate::second::layout::{Equation, Layout};

/// Demand 3's three outcomes: each lost cell with the bytes that it must hold; or
/// more than one encoded stripe has these survivors, or could have; or none has.
pub enum Rebuilt {
    Cells(Vec<(usize, Vec<u8>)>),
    Undetermined,
    Disagree,
}

impl Layout {
    /// What a stripe's lost cells must hold. The list may name a cell twice.
    pub fn rebuilt(&self, cell: usize, stripe: &[u8], lost: &[usize]) -> Rebuilt {
        let lost = each_once(lost);
        let mut matrix = self.matrix(cell, stripe, &lost);
        let solved = reduce(&mut matrix, lost.len());
        if solved.len() < lost.len() {
            return Rebuilt::Undetermined;
        }
        // A row without lost cells says that its survivors sum to zero.
        let without_lost = |row: &&Vec<u8>| row[..lost.len()].iter().all(|&holds| holds == 0);
        if matrix.iter().filter(without_lost).any(|row| row.iter().any(|&byte| byte != 0)) {
            return Rebuilt::Disagree;
        }
        // Every other row holds the one lost cell that it was solved for.
        let bytes = |row: usize| matrix[row][lost.len()..].to_vec();
        Rebuilt::Cells(solved.into_iter().map(|(row, k)| (lost[k], bytes(row))).collect())
    }

    /// A row for each equation: for each lost cell 1 where the equation holds it, else
    /// 0; then the XOR of the equation's survivors, which the lost cells have to sum to.
    fn matrix(&self, cell: usize, stripe: &[u8], lost: &[usize]) -> Vec<Vec<u8>> {
        let mut among_lost = vec![None; self.cells()];
        for (k, &n) in lost.iter().enumerate() {
            among_lost[n] = Some(k);
        }
        let row = |equation: &Equation| {
            let mut row = vec![0; lost.len() + cell];
            for &position in equation.sources.iter().chain([&equation.parity]) {
                let n = self.number(position);
                match among_lost[n] {
                    Some(k) => row[k] ^= 1,
                    None => add(&mut row[lost.len()..], &stripe[n * cell..(n + 1) * cell]),
                }
            }
            row
        };
        self.equations.iter().map(row).collect()
    }
}

fn each_once(lost: &[usize]) -> Vec<usize> {
    let mut lost = lost.to_vec();
    lost.sort_unstable();
    lost.dedup();
    lost
}

fn add(sum: &mut [u8], other: &[u8]) {
    for (byte, other) in sum.iter_mut().zip(other) {
        *byte ^= other;
    }
}

/// Takes the rows from the last to the first, and solves each for the last lost cell
/// that it still holds: adds it to all other rows with that cell. Gives the rows that
/// were solved and for which cell; their number is the rank.
fn reduce(matrix: &mut [Vec<u8>], lost: usize) -> Vec<(usize, usize)> {
    let mut solved = Vec::new();
    for n in (0..matrix.len()).rev() {
        let row = matrix[n].clone();
        let Some(k) = row[..lost].iter().rposition(|&holds| holds == 1) else {
            continue;
        };
        for (_, other) in matrix.iter_mut().enumerate().filter(|(m, other)| *m != n && other[k] == 1) {
            add(other, &row);
        }
        solved.push((n, k));
    }
    solved
}
