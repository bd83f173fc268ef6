//! The shapes that there are, and the refusals that come before a call's own.

use crate::second::call::{Answer, Call, Shape};
use crate::second::shelf::Shelf;

/// RDP, H-Code, X-Code and EVENODD.
pub const CODES: [u64; 4] = [1, 2, 3, 4];
pub const PRIMES: [u64; 10] = [3, 5, 7, 11, 13, 17, 19, 23, 29, 31];

/// The shelves of every code and prime, and of RDP with every number of data columns, made
/// once.
pub struct Second(Vec<(u64, u64, Option<u64>, Shelf)>);

impl Second {
    pub fn new() -> Second {
        let full = CODES.into_iter().flat_map(|code| PRIMES.map(|p| (code, p, None)));
        let short = PRIMES.into_iter().flat_map(|p| (1..=p - 1).map(move |m| (1, p, Some(m))));
        Second(full.chain(short).map(|(code, p, m)| (code, p, m, Shelf::new(code, p, m))).collect())
    }

    /// The shelf of a shape whose code, p and m are not refused.
    pub fn shelf(&self, shape: Shape) -> Option<&Shelf> {
        let is_it =
            |(code, p, m): (u64, u64, Option<u64>)| code == shape.code && p == shape.p && m == shape.m();
        let found = self.0.iter().find(|(code, p, m, _)| is_it((*code, *p, *m)));
        found.map(|(.., shelf)| shelf)
    }

    /// The stripe's length, for a shape that is not refused.
    pub fn length(&self, shape: Shape) -> Option<u64> {
        let shelf = self.shelf(shape)?;
        let cell = Some(shape.cell).filter(|cell| (1..=4096).contains(cell))?;
        Some(shelf.cells() as u64 * cell)
    }

    /// The shelf of a call's code, p and m, or the first of the refusals 1, 2 and 14.
    pub fn known(&self, shape: Shape) -> Result<&Shelf, u64> {
        refuse_if(!CODES.contains(&shape.code), 1)?;
        refuse_if(!PRIMES.contains(&shape.p), 2)?;
        refuse_if(shape.m().is_some_and(|m| shape.code != 1 || m < 1 || m > shape.p - 1), 14)?;
        Ok(self.shelf(shape).expect("there is one of every good shape"))
    }

    /// The shelf of a call on a stripe, or the first of the refusals 1, 2, 14, 4 and 5.
    pub fn stripe(&self, call: &Call) -> Result<&Shelf, u64> {
        let shelf = self.known(call.shape)?;
        cell_size(call.shape)?;
        stripe_length(shelf, call)?;
        Ok(shelf)
    }

    /// The shelf of a call that is for RDP alone, or the first of the refusals 1, 2, 14, 3
    /// and 4.
    pub fn rdp(&self, call: &Call) -> Result<&Shelf, u64> {
        let shelf = self.known(call.shape)?;
        refuse_if(call.shape.code != 1, 3)?;
        cell_size(call.shape)?;
        Ok(shelf)
    }
}

pub fn cell_size(shape: Shape) -> Result<(), u64> {
    refuse_if(!(1..=4096).contains(&shape.cell), 4)
}

pub fn stripe_length(shelf: &Shelf, call: &Call) -> Result<(), u64> {
    refuse_if(call.length != shelf.cells() as u64 * call.shape.cell, 5)
}

pub fn refuse_if(bad: bool, refusal: u64) -> Result<(), u64> {
    if bad {
        Err(refusal)
    } else {
        Ok(())
    }
}

/// A refusal is an answer; what is granted is carried out. Fails where the scope
/// document's own words contradict each other.
pub fn answered(
    granted: Result<&Shelf, u64>,
    carry_out: impl FnOnce(&Shelf) -> Result<Answer, String>,
) -> Result<Answer, String> {
    granted.map_or_else(|refusal| Ok(Answer::refused(refusal)), carry_out)
}
