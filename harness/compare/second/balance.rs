//! The second program's balanced plan: RDP at full width with one lost column, k, below p.

use crate::second::call::{Answer, Call, Lent, Operation};
use crate::second::shapes::{answered, cell_size, refuse_if, Second};
use crate::second::shelf::Shelf;
use std::collections::BTreeSet;

pub const BALANCED_PLAN: Operation = Operation(11);

/// The primes that have balanced plans.
pub const BALANCED: [u64; 6] = [3, 7, 11, 19, 23, 31];

pub fn granted<'a>(second: &'a Second, call: &Call, _: &[u64]) -> Result<&'a Shelf, u64> {
    let shape = call.shape;
    let shelf = second.known(shape)?;
    refuse_if(shape.m().is_some_and(|m| m < shape.p - 1), 14)?;
    refuse_if(shape.code != 1, 3)?;
    refuse_if(!BALANCED.contains(&shape.p), 15)?;
    cell_size(shape)?;
    refuse_if(call.k >= shape.p, 6)?;
    Ok(shelf)
}

pub fn balanced_plan(second: &Second, call: &Call, _: &mut Lent) -> Result<Answer, String> {
    answered(granted(second, call, &[]), |shelf| {
        let k = call.k as usize;
        let plan = shelf.balanced(k).ok_or_else(|| format!("no shift of the squares does for column {k}"))?;
        let reads = shelf.even_reads(k, plan);
        let reads = reads.map_err(|found| format!("the balanced plan {plan} for column {k}: {found}"))?;
        Ok(Answer::planned(plan, reads))
    })
}

/// The rows that go by diagonal: the set of nonzero squares mod p, shifted by the smallest s
/// from 0 on, mod p, so that it holds neither p-1 nor p-1-k.
fn by_diagonal(p: usize, k: usize) -> Option<BTreeSet<usize>> {
    let squares: BTreeSet<usize> = (1..p).map(|a| a * a % p).collect();
    let shifted = |s| squares.iter().map(|square| (square + s) % p).collect();
    let avoided = BTreeSet::from([p - 1, p - 1 - k]);
    (0..p).map(shifted).find(|rows: &BTreeSet<usize>| rows.is_disjoint(&avoided))
}

impl Shelf {
    /// The balanced plan for lost column k, of RDP at full width.
    pub fn balanced(&self, k: usize) -> Option<u64> {
        let rows = by_diagonal(self.columns - 1, k)?;
        Some(rows.into_iter().map(|i| 1 << i).sum())
    }

    /// How many cells a balanced plan reads. Holds it to what the request says of all of
    /// them: the ones, that it is accepted, and the reads of each column.
    fn even_reads(&self, k: usize, plan: u64) -> Result<u64, String> {
        let (p, ones) = (self.columns - 1, plan.count_ones() as usize);
        if ones != (p - 1) / 2 {
            return Err(format!("it has {ones} ones"));
        }
        if !self.accepts(k, plan) {
            return Err("it is not accepted".into());
        }
        let read = self.reads(k, plan)?;
        for column in 0..=p {
            let cells = BTreeSet::from_iter(self.in_columns(column, column));
            let count = cells.intersection(&read).count();
            let demanded = match column {
                _ if column == k => 0,
                _ if column == p => (p - 1) / 2,
                _ => (3 * p - 5) / 4,
            };
            if count != demanded {
                return Err(format!("it reads {count} cells of column {column}, not {demanded}"));
            }
        }
        Ok(read.len() as u64)
    }
}
