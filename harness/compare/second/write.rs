//! The second program's small write.

use crate::second::call::{Answer, Call, Lent, Operation};
use crate::second::layout::{Layout, Position};
use crate::second::shapes::{answered, refuse_if, Second};
use crate::second::shelf::Shelf;

pub const WRITE: Operation = Operation(3);

pub fn granted<'a>(second: &'a Second, call: &Call, _: &[u64]) -> Result<&'a Shelf, u64> {
    let shelf = second.stripe(call)?;
    refuse_if(call.row >= shelf.rows as u64 || call.column >= shelf.columns as u64, 6)?;
    refuse_if(shelf.is_parity((call.row as usize, call.column as usize)), 7)?;
    refuse_if(call.bytes_length != call.shape.cell, 8)?;
    Ok(shelf)
}

pub fn write(second: &Second, call: &Call, lent: &mut Lent) -> Result<Answer, String> {
    answered(granted(second, call, &[]), |shelf| {
        let position = (call.row as usize, shelf.there[call.column as usize]);
        shelf.widened(lent.bytes.len(), &mut lent.stripe, |whole, stripe| {
            whole.write(position, &lent.bytes, stripe);
            Ok(Answer::counted(whole.dependents(position)))
        })
    })
}

impl Layout {
    /// New bytes in a data cell: with the difference of old and new alone in a
    /// stripe of zero data and encoded, the XOR of the stripe with that one.
    fn write(&self, position: Position, bytes: &[u8], stripe: &mut [u8]) {
        let start = self.start(position, bytes.len());
        let difference: Vec<u8> = bytes.iter().zip(&stripe[start..]).map(|(new, old)| new ^ old).collect();
        for (byte, change) in stripe.iter_mut().zip(self.alone(position, &difference)) {
            *byte ^= change;
        }
    }

    /// How many parity cells are not zero with 1 alone at that position in a stripe
    /// of one-byte cells.
    fn dependents(&self, position: Position) -> u64 {
        let stripe = self.alone(position, &[1]);
        self.equations.iter().filter(|equation| stripe[self.start(equation.parity, 1)] != 0).count() as u64
    }

    /// The encoded stripe whose data is zero but for one cell.
    fn alone(&self, position: Position, bytes: &[u8]) -> Vec<u8> {
        let (start, cell) = (self.start(position, bytes.len()), bytes.len());
        let mut stripe = vec![0; self.cells() * cell];
        stripe[start..start + cell].copy_from_slice(bytes);
        self.encode(cell, &mut stripe);
        stripe
    }
}
