//! Which searches for a bad column are compared.

use crate::cases::case::{Case, Cases};
use crate::cases::fills::{Extent, Fill, EXTENTS, FILLS};
use crate::cases::shapes::{codes, LARGE_CELLS, SMALL_CELLS};
use crate::second::call::{Answer, Shape, CLEAN, COLUMN};
use crate::second::rebuild::BAD_COLUMN;
use crate::second::shelf::Shelf;

/// What was made so that one column explains it.
pub fn known(case: &Case, shelf: &Shelf) -> Option<Answer> {
    match case.fill {
        Fill::Encoded => Some(Answer::found(CLEAN, 0)),
        Fill::CellAltered(n) => Some(Answer::found(COLUMN, (n / shelf.rows) as u64)),
        Fill::ColumnAltered(c, _) => Some(Answer::found(COLUMN, c as u64)),
        _ => None,
    }
}

impl Cases<'_> {
    pub fn findings(&mut self) {
        self.every_bad_cell();
        self.every_bad_column();
        self.every_two_bad_columns();
        self.finding_shapes();
    }

    pub fn find(&mut self, shape: Shape, fill: Fill) {
        let case = self.case(self.good_call(BAD_COLUMN, shape), fill);
        self.list.push(case);
    }

    /// Each cell of each code and prime is the only bad one: its column is named.
    fn every_bad_cell(&mut self) {
        for (code, p) in codes() {
            for n in 0..self.full(code, p).cells() {
                let shape = Shape::new(code, p, self.some_cell(p));
                self.find(shape, Fill::CellAltered(n));
            }
        }
    }

    /// Each column is the bad one: in a bit, in some cells, in whole.
    fn every_bad_column(&mut self) {
        for (code, p) in codes() {
            for column in 0..self.full(code, p).columns {
                for extent in EXTENTS {
                    let shape = Shape::new(code, p, self.some_cell(p));
                    self.find(shape, Fill::ColumnAltered(column, extent));
                }
            }
        }
    }

    /// Every two columns are bad: unexplained, unless the changes happen to look like
    /// those of one column. A bit of each mostly lies at different bytes, where each
    /// byte by itself is explained.
    fn every_two_bad_columns(&mut self) {
        for (code, p) in codes() {
            let columns = self.full(code, p).columns;
            for (a, b) in (0..columns).flat_map(|b| (0..b).map(move |a| (a, b))) {
                let extent = self.random.one_of(&[Extent::Bit, Extent::Bit, Extent::Cells, Extent::Whole]);
                let shape = Shape::new(code, p, self.some_cell(p));
                self.find(shape, Fill::TwoAltered(a, b, extent));
            }
        }
    }

    /// The listed cell sizes: the large ones for the smallest primes and the largest.
    fn finding_shapes(&mut self) {
        for (code, p) in codes() {
            for cell in SMALL_CELLS {
                self.finding_fills(Shape::new(code, p, cell));
            }
            for cell in LARGE_CELLS.into_iter().filter(|_| p <= 7 || p == 31) {
                self.finding_fills(Shape::new(code, p, cell));
            }
        }
    }

    fn finding_fills(&mut self, shape: Shape) {
        FILLS.into_iter().for_each(|fill| self.find(shape, fill));
        let columns = self.shelf(shape).columns;
        for extent in EXTENTS {
            let [a, b] = [self.random.below(columns), self.random.below(columns)];
            self.find(shape, Fill::ColumnAltered(a, extent));
            if a != b {
                self.find(shape, Fill::TwoAltered(a, b, extent));
            }
        }
    }

    pub fn random_finding(&mut self) {
        let shape = self.random_shape();
        let columns = self.shelf(shape).columns;
        let [a, b] = [self.random.below(columns), self.random.below(columns)];
        let extent = self.random.one_of(&EXTENTS);
        let fill = match self.random.below(4) {
            0 => Fill::ColumnAltered(a, extent),
            1 if a != b => Fill::TwoAltered(a, b, extent),
            _ => self.random.one_of(&FILLS),
        };
        self.find(shape, fill);
    }
}
