//! The second program's rebuilds, and its search for a bad column.

use crate::second::call::{Answer, Call, Lent, Operation, CLEAN, COLUMN, UNEXPLAINED};
use crate::second::lost::Rebuilt;
use crate::second::shapes::{answered, refuse_if, Second};
use crate::second::shelf::Shelf;

pub const REBUILD_CELLS: Operation = Operation(4);
pub const REBUILD_COLUMNS: Operation = Operation(5);
pub const BAD_COLUMN: Operation = Operation(6);

pub fn cells_granted<'a>(second: &'a Second, call: &Call, lost: &[u64]) -> Result<&'a Shelf, u64> {
    let shelf = second.stripe(call)?;
    refuse_if(lost.iter().any(|&n| n >= shelf.cells() as u64), 6)?;
    Ok(shelf)
}

pub fn columns_granted<'a>(second: &'a Second, call: &Call, _: &[u64]) -> Result<&'a Shelf, u64> {
    let shelf = second.stripe(call)?;
    refuse_if(call.columns.iter().any(|&n| n >= shelf.columns as u64), 6)?;
    Ok(shelf)
}

pub fn cells(second: &Second, call: &Call, lent: &mut Lent) -> Result<Answer, String> {
    answered(cells_granted(second, call, &lent.lost), |shelf| {
        let lost: Vec<usize> = lent.lost.iter().map(|&n| n as usize).collect();
        rebuild(shelf, call.shape.cell as usize, &mut lent.stripe, &lost)
    })
}

pub fn columns(second: &Second, call: &Call, lent: &mut Lent) -> Result<Answer, String> {
    answered(columns_granted(second, call, &[]), |shelf| {
        let [a, b] = call.columns.map(|n| n as usize);
        match rebuild(shelf, call.shape.cell as usize, &mut lent.stripe, &shelf.in_columns(a, b))? {
            Answer { refusal: 11, .. } => Err(format!("columns {a} and {b} are undetermined")),
            answer => Ok(answer),
        }
    })
}

/// The zeros of columns that don't exist are survivors.
fn rebuild(shelf: &Shelf, cell: usize, stripe: &mut [u8], lost: &[usize]) -> Result<Answer, String> {
    let lost = shelf.in_whole(lost);
    shelf.widened(cell, stripe, |whole, stripe| match whole.rebuilt(cell, stripe, &lost) {
        Rebuilt::Undetermined => Ok(Answer::refused(11)),
        Rebuilt::Disagree => Ok(Answer::refused(12)),
        Rebuilt::Cells(cells) => {
            for (n, bytes) in cells {
                stripe[n * cell..(n + 1) * cell].copy_from_slice(&bytes);
            }
            match whole.broken(cell, stripe) {
                0 => Ok(Answer::refused(0)),
                count => Err(format!("{count} equations fail in the rebuilt stripe")),
            }
        }
    })
}

/// Tries every column that exists: would the rebuild of it alone succeed?
pub fn bad_column(second: &Second, call: &Call, lent: &mut Lent) -> Result<Answer, String> {
    let cell = call.shape.cell as usize;
    answered(second.stripe(call), |shelf| {
        shelf.widened(cell, &mut lent.stripe, |whole, stripe| {
            if whole.broken(cell, stripe) == 0 {
                return Ok(Answer::found(CLEAN, 0));
            }
            let mut would_do = Vec::new();
            for column in 0..shelf.columns {
                let lost = shelf.in_whole(&shelf.in_columns(column, column));
                match whole.rebuilt(cell, stripe, &lost) {
                    Rebuilt::Cells(_) => would_do.push(column),
                    Rebuilt::Disagree => {}
                    Rebuilt::Undetermined => return Err(format!("column {column} is undetermined")),
                }
            }
            match would_do[..] {
                [] => Ok(Answer::found(UNEXPLAINED, 0)),
                [column] => Ok(Answer::found(COLUMN, column as u64)),
                _ => Err(format!("the columns {would_do:?} would do, each alone")),
            }
        })
    })
}
