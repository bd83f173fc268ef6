//! A case: a call, and how what it is lent is filled and lies. And the row that the table
//! of calls has for its call.

use crate::cases::fields::Sent;
use crate::cases::fills::Fill;
use crate::cases::lists::Lost;
use crate::cases::loans::{Loan, Place, BUFFERS, BYTES, SPARE, STRIPE};
use crate::random::Random;
use crate::second::call::{Answer, Call, Lent, Operation, Shape};
use crate::second::shapes::{Second, CODES, PRIMES};
use crate::second::shelf::Shelf;

/// All that is said of one call: what it is, how the second program answers it, how it
/// uses what it is lent, and its cases.
pub struct Row {
    pub operation: Operation,
    pub name: &'static str,
    /// The answers that have to come up: what a call that is carried out finds, 0 where it
    /// looks for nothing, and the refusals.
    pub findings: &'static [u64],
    pub refusals: &'static [u64],
    /// The shelf of a call that isn't refused before bytes are looked at, or the refusal,
    /// by the numbers and the list of lost cells; of a job, for the rebuild that it asks.
    pub granted: for<'a> fn(&'a Second, &Call, &[u64]) -> Result<&'a Shelf, u64>,
    /// The second program's answer, with what it makes of what is lent.
    pub answer: fn(&Second, &Call, &mut Lent) -> Result<Answer, String>,
    /// The buffers that are lent, and those that always are sealed.
    pub lends: &'static [usize],
    pub seals: &'static [usize],
    /// Whether sealed bytes may be read.
    pub reads: bool,
    /// The buffer that a call with this answer may have written.
    pub writes: fn(&Answer, &Lent) -> Option<usize>,
    /// The answer of a call that isn't refused, where it is known without computing: from
    /// what the scope document says of all stripes, or from how this one was made.
    pub known: fn(&Case, &Shelf) -> Option<Answer>,
    /// What a call that is carried out gives back of an encoded stripe.
    pub back: for<'a> fn(&Case, &'a Filled, &Answer, &'a Lent) -> Back<'a>,
    /// Lists cases, makes a random one, and how often, beside the other calls.
    pub list: fn(&mut Cases),
    pub random: fn(&mut Cases),
    pub share: usize,
}

/// The bytes that were lost, and those that are there after the call.
pub type Back<'a> = Option<[&'a [u8]; 2]>;

/// The new bytes of a small write: random, those that the cell holds, or those with
/// one of them changed.
#[derive(Clone, Copy, PartialEq, Debug)]
pub enum New {
    Random,
    Same,
    OneByte,
}

/// Whether a run is one call, or is called again until no row is left: with the same
/// budget, or with a random one each time.
#[derive(Clone, Copy, PartialEq, Debug)]
pub enum Pieces {
    One,
    Same,
    Random,
}

/// A call, and how the buffers are filled and lent. `sent` is for a job: how its bytes
/// are made of what the rebuild that it asks for would be lent.
#[derive(Clone, Copy)]
pub struct Case {
    pub row: &'static Row,
    pub call: Call,
    pub fill: Fill,
    pub new: New,
    pub lost: Lost,
    pub pieces: Pieces,
    pub sent: Option<Sent>,
    pub loans: [Loan; BUFFERS],
}

/// What is lent, the number of lost cells that the call is told, and the stripe before
/// cells were lost.
pub struct Filled {
    pub lent: Lent,
    pub count: u64,
    pub whole: Vec<u8>,
}

/// The list of cases that is being made.
pub struct Cases<'a> {
    pub calls: &'static [Row],
    pub second: &'a Second,
    pub random: Random,
    pub list: Vec<Case>,
}

impl<'a> Cases<'a> {
    /// The shelf of a good shape.
    pub fn shelf(&self, shape: Shape) -> &'a Shelf {
        self.second.shelf(shape).expect("a good shape")
    }

    /// The shelf with all columns.
    pub fn full(&self, code: u64, p: u64) -> &'a Shelf {
        self.shelf(Shape::new(code, p, 1))
    }

    /// Lends in any place, at times NULL where there is nothing to lend, and seals at
    /// times, or always what the row says. The list of lost cells lies nowhere yet.
    pub fn case(&mut self, call: Call, fill: Fill) -> Case {
        let row = &self.calls[call.operation.0 as usize - 1];
        let seals = |buffer| row.seals.contains(&buffer);
        let stripe = Loan {
            sealed: seals(STRIPE) || self.random.below(4) == 0,
            place: self.lent_place(row, STRIPE, call.length),
        };
        let bytes = Loan {
            place: self.lent_place(row, BYTES, call.bytes_length),
            sealed: seals(BYTES) || self.random.below(2) == 0,
        };
        let list = Loan { place: Place::Null, sealed: true };
        let spare = Loan {
            place: self.lent_place(row, SPARE, call.spare_length),
            sealed: seals(SPARE) || self.random.below(2) == 0,
        };
        let loans = [stripe, bytes, list, spare];
        Case { row, call, fill, new: New::Random, lost: Lost::NONE, pieces: Pieces::One, sent: None, loans }
    }

    fn lent_place(&mut self, row: &Row, buffer: usize, length: u64) -> Place {
        if row.lends.contains(&buffer) {
            self.place(length)
        } else {
            Place::Null
        }
    }

    fn place(&mut self, length: u64) -> Place {
        let places = self.places();
        if length == 0 && self.random.below(2) == 0 {
            Place::Null
        } else {
            self.random.one_of(&places)
        }
    }

    pub fn places(&mut self) -> [Place; 3] {
        let offset = self.random.below(64) as u64;
        [Place::Middle(offset), Place::BeforePage, Place::AfterPage]
    }

    /// Where a list of lost cells lies: 64-bit numbers lie at multiples of 8.
    pub fn list_place(&mut self, empty: bool) -> Place {
        match self.place(!empty as u64) {
            Place::Middle(offset) => Place::Middle(offset / 8 * 8),
            place => place,
        }
    }

    /// Whether a call without a list of lost cells is refused before bytes are looked at.
    pub fn is_refused(&self, call: &Call) -> bool {
        let row = &self.calls[call.operation.0 as usize - 1];
        (row.granted)(self.second, call, &[]).is_err()
    }

    /// A call with a stripe of the right length.
    pub fn good_call(&self, operation: Operation, shape: Shape) -> Call {
        Call::new(operation, shape, self.second.length(shape).expect("a good shape"))
    }

    /// The shape, or a small good one that keeps what is good of its code and p.
    pub fn mended(&self, shape: Shape) -> Shape {
        if self.second.length(shape).is_some() {
            return shape;
        }
        let code = if CODES.contains(&shape.code) { shape.code } else { 1 };
        let p = if PRIMES.contains(&shape.p) { shape.p } else { 5 };
        Shape::new(code, p, 1)
    }

    /// A cell size for loops over many cells or columns: large ones for small p only.
    pub fn some_cell(&mut self, p: u64) -> u64 {
        match self.random.below(4) {
            0 if p <= 7 => self.random.one_of(&[512, 513, 1000]),
            1 => self.random.one_of(&[1, 2, 3, 7, 31, 64]),
            _ => self.random.one_of(&[1, 2, 3, 7]),
        }
    }

    /// Of each code without m, and as often of RDP with m. An m that isn't given may be any.
    pub fn random_shape(&mut self) -> Shape {
        let random = &mut self.random;
        let (code, p) = (CODES.get(random.below(CODES.len() + 1)), random.one_of(&PRIMES));
        let most = if p <= 7 || random.below(100) == 0 { 4096 } else { 300 };
        let cell = match random.below(3) {
            0 => random.one_of(&[1, 2, 3, 7, 31, 64, 127, 128, 129, 255]),
            1 => 1 + random.below(20) as u64,
            _ => 1 + random.below(most) as u64,
        };
        if let Some(&code) = code {
            return Shape { data: random.one_of(&[0, 0, 1, p, u64::MAX]), ..Shape::new(code, p, cell) };
        }
        let data_given = random.one_of(&[1, 1, 2, 1 << 32, u64::MAX]);
        Shape { data_given, ..Shape::short(p, cell, 1 + random.below(p as usize - 1) as u64) }
    }
}
