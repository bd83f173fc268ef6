//! Which balanced plans are compared, and which runs by them.

use crate::cases::case::{Case, Cases, Pieces};
use crate::cases::fills::{Fill, FILLS};
use crate::cases::shapes::{any_p, codes, outside, some_codes, NO_CODE};
use crate::second::balance::{BALANCED, BALANCED_PLAN};
use crate::second::call::{Answer, Call, Shape};
use crate::second::shapes::PRIMES;
use crate::second::shelf::Shelf;

/// Good and bad, those that have balanced plans and others. The large ones look like good
/// ones when cut short.
const SOME_P: [u64; 11] = [0, 4, 5, 7, 17, 31, 32, 0x107, 0x1_0007, 0x1_0000_0007, u64::MAX];

/// Every p that has balanced plans with every column that has one: 94 of them.
fn lost_columns() -> impl Iterator<Item = (u64, u64)> {
    BALANCED.into_iter().flat_map(|p| (0..p).map(move |k| (p, k)))
}

/// Without an m, whatever stands in its place, and with all data columns as an m.
fn full_widths(p: u64, cell: u64) -> impl Iterator<Item = Shape> {
    let absent = [0, 1, u64::MAX].map(|data| (0, data));
    let told = [1, 1 << 32, u64::MAX].map(|data_given| (data_given, p - 1));
    let with = move |(data_given, data)| Shape { data_given, data, ..Shape::new(1, p, cell) };
    absent.into_iter().chain(told).map(with)
}

/// It reads as many cells as the plan by the rule, only others.
pub fn known_balanced(case: &Case, shelf: &Shelf) -> Option<Answer> {
    let (k, rows) = (case.call.k as usize, shelf.rows as u64);
    Some(Answer::planned(shelf.balanced(k)?, 3 * rows * rows / 4))
}

impl Cases<'_> {
    pub fn balanced_plans(&mut self) {
        self.every_balanced_plan();
        self.every_column();
        self.every_width();
        self.far_numbers();
        self.bad_balance();
        self.balanced_runs();
    }

    fn push_balanced(&mut self, shape: Shape, k: u64) {
        let case = self.case(Call { k, ..Call::new(BALANCED_PLAN, shape, 0) }, Fill::Random);
        self.list.push(case);
    }

    fn every_balanced_plan(&mut self) {
        for (p, k) in lost_columns() {
            for cell in [1, 2, 7, 512, 1000, 4096] {
                full_widths(p, cell).for_each(|shape| self.push_balanced(shape, k));
            }
        }
    }

    /// Every code and p with every column, those past the last, and far ones that are
    /// good ones when cut short.
    fn every_column(&mut self) {
        for (code, p) in codes() {
            for k in (0..=p + 2).chain(outside(self.random.below(p as usize) as u64, p)) {
                let cell = self.random.one_of(&[1, 2, 512, 4096]);
                self.push_balanced(Shape::new(code, p, cell), k);
            }
        }
    }

    /// Every code and p with every m, those past its range, and far ones that are all data
    /// columns when cut short.
    fn every_width(&mut self) {
        for (code, p) in codes() {
            for data in (0..=p + 1).chain(outside(p - 1, p)) {
                let another = self.random.one_of(&[2, 1 << 8, 1 << 32, 1 << 63, u64::MAX]);
                for data_given in [1, another] {
                    for k in [0, p - 1, p, u64::MAX] {
                        let cell = self.random.one_of(&[1, 2, 512, 4096]);
                        self.push_balanced(Shape { data_given, data, ..Shape::new(code, p, cell) }, k);
                    }
                }
            }
        }
    }

    /// Each number in turn far outside, with all others good, m given or not.
    fn far_numbers(&mut self) {
        for (p, given) in PRIMES.into_iter().flat_map(|p| [0, 1].map(|given| (p, given))) {
            let (cell, k) = (self.random.one_of(&[1, 64]), self.random.below(p as usize) as u64);
            let good = [1, p, cell, given, p - 1, k];
            for (place, end) in [NO_CODE, 32, 4097, 2, p, p].into_iter().enumerate() {
                for far in [0, 1 << 63].into_iter().chain(outside(good[place], end)) {
                    let mut numbers = good;
                    numbers[place] = far;
                    let [code, p, cell, data_given, data, k] = numbers;
                    self.push_balanced(Shape { code, p, cell, data_given, data }, k);
                }
            }
        }
    }

    /// Good and bad parameters in all combinations: the first refusal of 1, 2, 14, 3, 15, 4
    /// and 6 must come.
    fn bad_balance(&mut self) {
        for (code, p) in some_codes().flat_map(|code| SOME_P.map(|p| (code, p))) {
            let [below, all] = [p.wrapping_sub(2), p.wrapping_sub(1)];
            for (data_given, data) in [(0, 2), (1, all), (1, below), (1, 0), (2, p), (u64::MAX, u64::MAX)] {
                for cell in [0, 1, 4096, 4097, 0x1_0001, u64::MAX] {
                    for k in [0, p, u64::MAX] {
                        self.push_balanced(Shape { code, p, cell, data_given, data }, k);
                    }
                }
            }
        }
        for (shape, _) in any_p() {
            self.push_balanced(shape, 1);
            self.push_balanced(Shape { data_given: 1, data: shape.p.wrapping_sub(1), ..shape }, 1);
        }
    }

    /// Every column that has a balanced plan by it, of stripes of every kind, and encoded
    /// ones in pieces, with an m or without.
    fn balanced_runs(&mut self) {
        for (p, k) in lost_columns() {
            for fill in FILLS {
                let call = self.balanced_run(p, k);
                self.push_run(call, fill, Pieces::One);
            }
            for shape in full_widths(p, 1) {
                let shape = Shape { cell: self.some_cell(p), ..shape };
                let call = self.whole(shape, k, self.balanced(shape, k));
                self.push_run(call, Fill::Encoded, Pieces::One);
            }
            let budget = 1 + self.random.below(p as usize - 1) as u64;
            for (budget, pieces) in [(1, Pieces::Same), (budget, Pieces::Same), (budget, Pieces::Random)] {
                let call = Call { budget, ..self.balanced_run(p, k) };
                self.push_run(call, Fill::Encoded, pieces);
            }
        }
    }

    fn balanced(&self, shape: Shape, k: u64) -> u64 {
        self.shelf(shape).balanced(k as usize).expect("a balanced plan")
    }

    /// A run of the whole column by its balanced plan, with cells of any size.
    fn balanced_run(&mut self, p: u64, k: u64) -> Call {
        let shape = Shape::new(1, p, self.some_cell(p));
        self.whole(shape, k, self.balanced(shape, k))
    }

    /// A plan of any shape and column, or a run by one, of some rows or in pieces.
    pub fn random_balanced(&mut self) {
        let shape = self.random_shape();
        let p = shape.p as usize;
        if self.random.below(4) == 0 || !BALANCED.contains(&shape.p) {
            let shape = Shape { code: self.random.one_of(&[1, shape.code]), ..shape };
            let k = self.random.below(p + 2) as u64;
            return self.push_balanced(shape, k);
        }
        let shape = Shape { code: 1, data: shape.p - 1, ..shape };
        let k = self.random.below(p) as u64;
        let call = self.whole(shape, k, self.balanced(shape, k));
        if self.random.below(4) == 0 {
            let call = Call { budget: self.random.below(4) as u64, ..call };
            return self.push_run(call, Fill::Encoded, Pieces::Random);
        }
        let [row, budget] = [self.random.below(p), self.random.below(p + 2)].map(|n| n as u64);
        let (first, fill) = (self.random.one_of(&[0, row]), self.random.one_of(&FILLS));
        self.push_run(Call { first, budget, ..call }, fill, Pieces::One);
    }
}
