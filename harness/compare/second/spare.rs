//! The second program's plan, run and show: RDP with one lost column, k.

use crate::second::call::{Answer, Call, Lent, Operation, IN_SPARE, IN_STRIPE};
use crate::second::layout::{Equation, Layout, Position};
use crate::second::shapes::{answered, refuse_if, stripe_length, Second};
use crate::second::shelf::Shelf;
use std::collections::BTreeSet;

pub const PLAN: Operation = Operation(7);
pub const RUN: Operation = Operation(8);
pub const SHOW: Operation = Operation(9);

pub fn plan_granted<'a>(second: &'a Second, call: &Call, _: &[u64]) -> Result<&'a Shelf, u64> {
    let shelf = second.rdp(call)?;
    refuse_if(call.k >= shelf.columns as u64, 6)?;
    Ok(shelf)
}

/// With the stripe and the spare, each of the right length.
fn both_lent<'a>(second: &'a Second, call: &Call) -> Result<&'a Shelf, u64> {
    let shelf = second.rdp(call)?;
    stripe_length(shelf, call)?;
    refuse_if(call.spare_length != shelf.rows as u64 * call.shape.cell, 5)?;
    Ok(shelf)
}

pub fn run_granted<'a>(second: &'a Second, call: &Call, _: &[u64]) -> Result<&'a Shelf, u64> {
    let shelf = both_lent(second, call)?;
    refuse_if(call.k >= shelf.columns as u64 || call.first > shelf.rows as u64, 6)?;
    refuse_if(!shelf.accepts(call.k as usize, call.plan), 9)?;
    Ok(shelf)
}

pub fn show_granted<'a>(second: &'a Second, call: &Call, _: &[u64]) -> Result<&'a Shelf, u64> {
    let shelf = both_lent(second, call)?;
    let (rows, columns) = (shelf.rows as u64, shelf.columns as u64);
    let outside = call.k >= columns || call.done > rows || call.row >= rows || call.column >= columns;
    refuse_if(outside, 6)?;
    refuse_if(call.column == call.k && call.row >= call.done, 10)?;
    Ok(shelf)
}

pub fn plan(second: &Second, call: &Call, _: &mut Lent) -> Result<Answer, String> {
    answered(plan_granted(second, call, &[]), |shelf| {
        let k = call.k as usize;
        let plan = shelf.rule(k);
        if !shelf.accepts(k, plan) {
            return Err(format!("the rule's plan {plan} for column {k} is not accepted"));
        }
        Ok(Answer::planned(plan, shelf.reads(k, plan)?.len() as u64))
    })
}

pub fn run(second: &Second, call: &Call, lent: &mut Lent) -> Result<Answer, String> {
    answered(run_granted(second, call, &[]), |shelf| {
        let (cell, first) = (call.shape.cell as usize, call.first as usize);
        let (k, left) = (shelf.there[call.k as usize], (shelf.rows - first) as u64);
        let count = if call.budget < left { call.budget } else { left };
        shelf.widened(cell, &mut lent.stripe, |whole, stripe| {
            for row in first..first + count as usize {
                let bytes = whole.xor(&whole.others(k, call.plan, row)?, cell, stripe);
                lent.spare[row * cell..(row + 1) * cell].copy_from_slice(&bytes);
            }
            Ok(Answer::counted(count))
        })
    })
}

pub fn show(second: &Second, call: &Call, _: &mut Lent) -> Result<Answer, String> {
    answered(show_granted(second, call, &[]), |shelf| {
        let position = (call.row as usize, call.column as usize);
        let cell = call.shape.cell;
        Ok(if call.column != call.k {
            Answer::part(IN_STRIPE, shelf.start(position, cell as usize) as u64, cell)
        } else {
            Answer::part(IN_SPARE, call.row * cell, cell)
        })
    })
}

impl Layout {
    fn p(&self) -> usize {
        self.columns - 1
    }

    /// The plan by the rule: the lowest (p-1)/2 rows other than row p-1-k, which is no
    /// row for k = 0; for k = p all rows.
    pub fn rule(&self, k: usize) -> u64 {
        let p = self.p();
        let rows: Vec<usize> = if k == p {
            (0..=p - 2).collect()
        } else {
            (0..=p - 2).filter(|i| i + k != p - 1).take((p - 1) / 2).collect()
        };
        rows.into_iter().map(|i| 1 << i).sum()
    }

    /// Whether a plan is accepted, by the scope document's sentence.
    pub fn accepts(&self, k: usize, plan: u64) -> bool {
        let p = self.p();
        let has = |bit: usize| plan >> bit & 1 == 1;
        let no_bit_above = !(p - 1..64).any(has);
        let no_forced_diagonal = !((1..=p - 1).contains(&k) && has(p - 1 - k));
        let all_if_last = k != p || (0..=p - 2).all(has);
        no_bit_above && no_forced_diagonal && all_if_last
    }

    /// The other cells of the equation that a row of column k is taken by.
    fn others(&self, k: usize, plan: u64, row: usize) -> Result<Vec<Position>, String> {
        let (rows, diagonals) = self.equations.split_at(self.rows);
        let family = if plan >> row & 1 == 1 { diagonals } else { rows };
        let cells = |equation: &Equation| {
            let mut cells = equation.sources.clone();
            cells.push(equation.parity);
            cells
        };
        let holding: Vec<Vec<Position>> =
            family.iter().map(cells).filter(|cells| cells.contains(&(row, k))).collect();
        match &holding[..] {
            [cells] => Ok(cells.iter().copied().filter(|&cell| cell != (row, k)).collect()),
            _ => Err(format!("{} equations hold row {row} of column {k} in plan {plan}", holding.len())),
        }
    }

    /// The cells that a rebuild of the whole column by a plan reads, each once.
    pub fn reads(&self, k: usize, plan: u64) -> Result<BTreeSet<Position>, String> {
        let mut cells = BTreeSet::new();
        for row in 0..self.rows {
            cells.extend(self.others(k, plan, row)?);
        }
        Ok(cells)
    }
}
