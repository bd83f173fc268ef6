//! A shelf: which columns of a code's stripe exist, and lie in the lent stripe. Of RDP with
//! m data columns those are the first m and the last two. The others are zeros: a call is
//! carried out with the zeros put back, on the whole layout.

use crate::second::layout::{Layout, Position};
use std::collections::BTreeSet;

/// Rows and columns are those that exist, numbered as they lie. `there` has the number of
/// each of these columns in the whole layout.
pub struct Shelf {
    pub rows: usize,
    pub columns: usize,
    pub there: Vec<usize>,
    pub whole: Layout,
}

impl Shelf {
    /// For a code and a p in the lists only; m for RDP only, and 1 to p - 1.
    pub fn new(code: u64, p: u64, m: Option<u64>) -> Shelf {
        let whole = Layout::new(code, p);
        let exists = |j: &usize| m.is_none_or(|m| *j < m as usize || *j >= p as usize - 1);
        let there: Vec<usize> = (0..whole.columns).filter(exists).collect();
        Shelf { rows: whole.rows, columns: there.len(), there, whole }
    }

    pub fn cells(&self) -> usize {
        self.rows * self.columns
    }

    pub fn equations(&self) -> usize {
        self.whole.equations.len()
    }

    /// The numbers of the cells of two columns, which may be one.
    pub fn in_columns(&self, a: usize, b: usize) -> Vec<usize> {
        (0..self.cells()).filter(|n| [a, b].contains(&(n / self.rows))).collect()
    }

    /// Where a cell's bytes start.
    pub fn start(&self, (row, column): Position, cell: usize) -> usize {
        (column * self.rows + row) * cell
    }

    /// Where cell number `n` is in the whole layout.
    pub fn position(&self, n: usize) -> Position {
        (n % self.rows, self.there[n / self.rows])
    }

    pub fn is_parity(&self, (row, column): Position) -> bool {
        self.whole.is_parity((row, self.there[column]))
    }

    /// The numbers of cells in the whole layout.
    pub fn in_whole(&self, cells: &[usize]) -> Vec<usize> {
        cells.iter().map(|&n| self.whole.number(self.position(n))).collect()
    }

    /// Has something done to the stripe with the zeros put back, and takes them out again:
    /// they have to be zeros still.
    pub fn widened<T>(
        &self,
        cell: usize,
        stripe: &mut [u8],
        work: impl FnOnce(&Layout, &mut [u8]) -> Result<T, String>,
    ) -> Result<T, String> {
        if self.columns == self.whole.columns {
            return work(&self.whole, stripe);
        }
        let column = self.rows * cell;
        let mut wide = vec![0; self.whole.columns * column];
        for (&j, bytes) in self.there.iter().zip(stripe.chunks(column)) {
            wide[j * column..][..column].copy_from_slice(bytes);
        }
        let came = work(&self.whole, &mut wide)?;
        for (&j, bytes) in self.there.iter().zip(stripe.chunks_mut(column)) {
            bytes.copy_from_slice(&wide[j * column..][..column]);
            wide[j * column..][..column].fill(0);
        }
        if wide.iter().any(|&byte| byte != 0) {
            return Err("a column that doesn't exist has come to hold bytes".into());
        }
        Ok(came)
    }

    pub fn encode(&self, cell: usize, stripe: &mut [u8]) -> Result<(), String> {
        self.widened(cell, stripe, |whole, stripe| {
            whole.encode(cell, stripe);
            Ok(())
        })
    }

    /// The plan for lost column k by the rule.
    pub fn rule(&self, k: usize) -> u64 {
        self.whole.rule(self.there[k])
    }

    pub fn accepts(&self, k: usize, plan: u64) -> bool {
        self.whole.accepts(self.there[k], plan)
    }

    /// The numbers of the cells that a rebuild of the whole column by a plan reads, each
    /// once, and those that exist only.
    pub fn reads(&self, k: usize, plan: u64) -> Result<BTreeSet<usize>, String> {
        let read = self.whole.reads(self.there[k], plan)?;
        Ok((0..self.cells()).filter(|&n| read.contains(&self.position(n))).collect())
    }
}
