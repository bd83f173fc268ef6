//! How bytes are lent.

/// The buffers that a call may be lent: the stripe, new bytes, the list of lost cells, the
/// spare. A job is lent as new bytes are, and the output for its answer as the spare is.
pub const STRIPE: usize = 0;
pub const BYTES: usize = 1;
pub const LOST: usize = 2;
pub const SPARE: usize = 3;
pub const BUFFERS: usize = 4;

/// Where the lent bytes lie: at an offset from a multiple of 64, right before or
/// right after an inaccessible page, or nowhere (NULL).
#[derive(Clone, Copy, PartialEq, Debug)]
pub enum Place {
    Middle(u64),
    BeforePage,
    AfterPage,
    Null,
}

/// Sealed bytes can't be written while the call runs; bytes are sealed only where the call
/// has to leave them as they are.
#[derive(Clone, Copy, Debug)]
pub struct Loan {
    pub place: Place,
    pub sealed: bool,
}
