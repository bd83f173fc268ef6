//! What a call is told, what it is lent and what it answers.

use std::fmt;

/// The number of a call, by which the bridge knows it too.
#[derive(Clone, Copy, PartialEq, Eq, Debug)]
pub struct Operation(pub u64);

/// A number m of data columns is given where `data_given` is not 0, and then it is `data`.
#[derive(Clone, Copy, PartialEq, Debug)]
pub struct Shape {
    pub code: u64,
    pub p: u64,
    pub cell: u64,
    pub data_given: u64,
    pub data: u64,
}

impl Shape {
    /// Without m.
    pub const fn new(code: u64, p: u64, cell: u64) -> Shape {
        Shape { code, p, cell, data_given: 0, data: 0 }
    }

    /// Of RDP, with m.
    pub const fn short(p: u64, cell: u64, m: u64) -> Shape {
        Shape { data_given: 1, data: m, ..Shape::new(1, p, cell) }
    }

    pub fn m(&self) -> Option<u64> {
        (self.data_given != 0).then_some(self.data)
    }
}

/// What a call is told beside the bytes. Row and column are for a small write and a
/// show, the length of the new bytes for a small write, the columns for a rebuild of
/// columns; k is the lost column of a plan, a run and a show; plan, first row and budget
/// are for a run, the rows done for a show.
#[derive(Clone, Copy)]
pub struct Call {
    pub operation: Operation,
    pub shape: Shape,
    pub length: u64,
    pub row: u64,
    pub column: u64,
    pub bytes_length: u64,
    pub columns: [u64; 2],
    pub spare_length: u64,
    pub k: u64,
    pub plan: u64,
    pub first: u64,
    pub budget: u64,
    pub done: u64,
}

impl Call {
    pub const fn new(operation: Operation, shape: Shape, length: u64) -> Call {
        Call {
            operation,
            shape,
            length,
            row: 0,
            column: 0,
            bytes_length: 0,
            columns: [0, 0],
            spare_length: 0,
            k: 0,
            plan: 0,
            first: 0,
            budget: 0,
            done: 0,
        }
    }

    /// The numbers that are told, lengths aside, in the order of the bridge's request.
    pub fn numbers(&self) -> [(&'static str, u64); 14] {
        let Call { shape: Shape { code, p, cell, data_given, data }, columns: [a, b], .. } = *self;
        [
            ("code", code),
            ("p", p),
            ("cell", cell),
            ("data_given", data_given),
            ("data", data),
            ("row", self.row),
            ("column", self.column),
            ("a", a),
            ("b", b),
            ("k", self.k),
            ("plan", self.plan),
            ("first", self.first),
            ("budget", self.budget),
            ("done", self.done),
        ]
    }
}

/// What is lent: the stripe, the new bytes, the list of lost cells, and the spare; what a
/// call isn't lent is empty. A job is lent as the new bytes are, and the output for its
/// answer as the spare is.
#[derive(Clone)]
pub struct Lent {
    pub stripe: Vec<u8>,
    pub bytes: Vec<u8>,
    pub lost: Vec<u64>,
    pub spare: Vec<u8>,
}

/// What a call doesn't give is 0. Of a job it is the refusal in its answer, where there
/// is room for that, and the answer's length.
#[derive(Clone, Copy, PartialEq, Debug)]
pub struct Answer {
    pub refusal: u64,
    pub count: u64,
    pub finding: u64,
    pub column: u64,
    pub rows: u64,
    pub reads: u64,
    pub buffer: u64,
    pub offset: u64,
    pub length: u64,
}

pub const CLEAN: u64 = 1;
pub const COLUMN: u64 = 2;
pub const UNEXPLAINED: u64 = 3;

pub const IN_STRIPE: u64 = 1;
pub const IN_SPARE: u64 = 2;

impl Answer {
    /// Of its numbers, in the order of the bridge's answer.
    pub const fn of(numbers: [u64; 9]) -> Answer {
        let [refusal, count, finding, column, rows, reads, buffer, offset, length] = numbers;
        Answer { refusal, count, finding, column, rows, reads, buffer, offset, length }
    }

    /// The numbers beside the refusal.
    fn given(&self) -> [(&'static str, u64); 8] {
        [
            ("count", self.count),
            ("finding", self.finding),
            ("column", self.column),
            ("rows", self.rows),
            ("reads", self.reads),
            ("buffer", self.buffer),
            ("offset", self.offset),
            ("length", self.length),
        ]
    }

    pub const fn refused(refusal: u64) -> Answer {
        Answer { refusal, ..Answer::of([0; 9]) }
    }

    pub const fn counted(count: u64) -> Answer {
        Answer { count, ..Answer::refused(0) }
    }

    pub const fn found(finding: u64, column: u64) -> Answer {
        Answer { finding, column, ..Answer::refused(0) }
    }

    pub const fn planned(rows: u64, reads: u64) -> Answer {
        Answer { rows, reads, ..Answer::refused(0) }
    }

    pub const fn part(buffer: u64, offset: u64, length: u64) -> Answer {
        Answer { buffer, offset, length, ..Answer::refused(0) }
    }

    pub const fn answered(refusal: u64, length: u64) -> Answer {
        Answer { length, ..Answer::refused(refusal) }
    }
}

impl fmt::Display for Answer {
    /// The refusal, and whatever else is not 0.
    fn fmt(&self, to: &mut fmt::Formatter) -> fmt::Result {
        write!(to, "refusal {}", self.refusal)?;
        let mut given = self.given().into_iter().filter(|(_, n)| *n != 0);
        given.try_for_each(|(name, n)| write!(to, " {name} {n}"))
    }
}
