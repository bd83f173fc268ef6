//! The second program's encode and broken.

use crate::second::call::{Answer, Call, Lent, Operation};
use crate::second::shapes::{answered, Second};
use crate::second::shelf::Shelf;

pub const ENCODE: Operation = Operation(1);
pub const BROKEN: Operation = Operation(2);

/// Whether a call on a whole stripe is granted.
pub fn granted<'a>(second: &'a Second, call: &Call, _: &[u64]) -> Result<&'a Shelf, u64> {
    second.stripe(call)
}

pub fn encode(second: &Second, call: &Call, lent: &mut Lent) -> Result<Answer, String> {
    answered(granted(second, call, &[]), |shelf| {
        shelf.encode(call.shape.cell as usize, &mut lent.stripe)?;
        Ok(Answer::refused(0))
    })
}

pub fn broken(second: &Second, call: &Call, lent: &mut Lent) -> Result<Answer, String> {
    answered(granted(second, call, &[]), |shelf| {
        let cell = call.shape.cell as usize;
        shelf.widened(cell, &mut lent.stripe, |whole, stripe| Ok(Answer::counted(whole.broken(cell, stripe))))
    })
}
