//! What the stripe holds before a call.

use crate::random::Random;
use crate::second::shelf::Shelf;

/// A wholly random stripe has junk in its parity cells too.
#[derive(Clone, Copy, PartialEq, Debug)]
pub enum Fill {
    Written(usize),
    Random,
    Encoded,
    BitDamaged,
    LateDamaged,
    CellDamaged,
    ColumnDamaged,
    SeveralDamaged,
    CellAltered(usize),
    ColumnAltered(usize, Extent),
    TwoAltered(usize, usize, Extent),
    LoneByteInCell(usize),
}

/// How much of a column is altered; something always is. A late bit lies past byte 512
/// of its cell, or in the last byte where there are no more.
#[derive(Clone, Copy, PartialEq, Debug)]
pub enum Extent {
    Bit,
    LateBit,
    Cells,
    Whole,
}

/// Undamaged, damaged and junk. Of small damage most is in cells that aren't lost.
pub const FILLS: [Fill; 7] = [
    Fill::Encoded,
    Fill::BitDamaged,
    Fill::LateDamaged,
    Fill::CellDamaged,
    Fill::ColumnDamaged,
    Fill::SeveralDamaged,
    Fill::Random,
];

pub const EXTENTS: [Extent; 4] = [Extent::Bit, Extent::LateBit, Extent::Cells, Extent::Whole];

impl Fill {
    /// Damages an encoded stripe.
    pub fn damage(self, shelf: &Shelf, cell: usize, stripe: &mut [u8], random: &mut Random) {
        let column = shelf.rows * cell;
        let any = random.below(shelf.cells());
        match self {
            Fill::BitDamaged => flip(&mut stripe[any * cell..][..cell], false, random),
            Fill::LateDamaged => flip(&mut stripe[any * cell..][..cell], true, random),
            Fill::CellDamaged => random.fill(&mut stripe[any * cell..][..cell]),
            Fill::ColumnDamaged => {
                let start = random.below(shelf.columns) * column;
                random.fill(&mut stripe[start..start + column]);
            }
            // The same change at the same byte of some cells: in an equation with
            // two of them it is not seen.
            Fill::SeveralDamaged => {
                let (byte, change) = (random.below(cell), random.nonzero_byte());
                for _ in 0..2 + random.below(7) {
                    stripe[random.below(shelf.cells()) * cell + byte] ^= change;
                }
            }
            Fill::CellAltered(n) => alter(&mut stripe[n * cell..][..cell], random),
            Fill::ColumnAltered(c, extent) => {
                extent.alter(&mut stripe[c * column..][..column], cell, random);
            }
            Fill::TwoAltered(a, b, extent) => {
                for c in [a, b] {
                    extent.alter(&mut stripe[c * column..][..column], cell, random);
                }
            }
            _ => {}
        }
    }
}

impl Extent {
    fn alter(self, column: &mut [u8], cell: usize, random: &mut Random) {
        let one = random.below(column.len() / cell);
        match self {
            Extent::Bit => flip(&mut column[one * cell..][..cell], false, random),
            Extent::LateBit => flip(&mut column[one * cell..][..cell], true, random),
            Extent::Cells => {
                for (row, bytes) in column.chunks_mut(cell).enumerate() {
                    if row == one || random.below(2) == 0 {
                        alter(bytes, random);
                    }
                }
            }
            Extent::Whole => column.iter_mut().for_each(|byte| *byte ^= random.nonzero_byte()),
        }
    }
}

/// Flips a bit of a cell, more often than others in its first or last byte.
fn flip(bytes: &mut [u8], late: bool, random: &mut Random) {
    let last = bytes.len() - 1;
    let first = if late { last.min(512) } else { 0 };
    let any = first + random.below(bytes.len() - first);
    bytes[random.one_of(&[first, any, last])] ^= 1 << random.below(8);
}

/// Changes one byte of a cell, or every byte.
fn alter(bytes: &mut [u8], random: &mut Random) {
    if random.below(2) == 0 {
        bytes[random.below(bytes.len())] ^= random.nonzero_byte();
    } else {
        bytes.iter_mut().for_each(|byte| *byte ^= random.nonzero_byte());
    }
}
