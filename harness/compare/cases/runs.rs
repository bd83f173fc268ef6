//! Which plans, runs and shows are compared.

use crate::cases::case::{Back, Case, Cases, Filled, Pieces};
use crate::cases::fills::{Fill, FILLS};
use crate::cases::lists::{Base, Found, Lost};
use crate::cases::loans::{SPARE, STRIPE};
use crate::cases::shapes::{any_p, codes, edge_shapes, outside, sides, some_codes};
use crate::cases::shapes::{LARGE_CELLS, SMALL_CELLS, SOME_CELLS, SOME_P};
use crate::random::Random;
use crate::second::call::{Answer, Call, Lent, Operation, Shape};
use crate::second::shapes::PRIMES;
use crate::second::shelf::Shelf;
use crate::second::spare::{PLAN, RUN, SHOW};

/// Where every plan, row and column is tried.
const SMALL_PRIMES: [u64; 3] = [3, 5, 7];

/// Every p of RDP with every column.
fn lost_columns() -> impl Iterator<Item = (u64, u64)> {
    PRIMES.into_iter().flat_map(|p| (0..=p).map(move |k| (p, k)))
}

pub fn known_plan(case: &Case, shelf: &Shelf) -> Option<Answer> {
    let (k, rows, m) = (case.call.k, shelf.rows as u64, shelf.columns as u64 - 2);
    let reads = match k == m + 1 {
        true => Some((m + 1) * rows - m),
        false => (m == rows).then_some(3 * rows * rows / 4),
    };
    reads.map(|reads| Answer::planned(shelf.rule(k as usize), reads))
}

/// The rebuilt rows of the lost column.
pub fn back<'a>(case: &Case, filled: &'a Filled, answer: &Answer, after: &'a Lent) -> Back<'a> {
    let [first, count, cell] = [case.call.first, answer.count, case.call.shape.cell].map(|n| n as usize);
    let rebuilt = first * cell..(first + count) * cell;
    Some([&case.column(filled)[rebuilt.clone()], &after.spare[rebuilt]])
}

impl Case {
    /// The lost column, as it was.
    pub fn column<'a>(&self, filled: &'a Filled) -> &'a [u8] {
        let length = filled.lent.spare.len();
        &filled.whole[self.call.k as usize * length..][..length]
    }

    /// Moves a run on by the rows rebuilt. Gives whether there is a next piece of it.
    pub fn go_on(&mut self, rebuilt: u64, random: &mut Random) -> bool {
        if self.pieces == Pieces::One {
            return false;
        }
        let rows = self.call.shape.p - 1;
        self.call.first += rebuilt;
        if self.pieces == Pieces::Random {
            self.call.budget = random.below(rows as usize + 1) as u64;
        }
        self.call.first < rows
    }
}

impl Cases<'_> {
    pub fn plans(&mut self) {
        self.every_plan();
        self.bad_plans();
    }

    pub fn runs(&mut self) {
        self.every_run();
        self.every_small_plan();
        self.other_plans();
        self.every_piece();
        self.every_first_row();
        self.refused_plans();
        self.run_shapes();
        self.columns_outside();
        self.wrong_lengths();
        self.bad_runs();
    }

    pub fn shows(&mut self) {
        self.every_small_show();
        self.other_shows();
        self.shows_outside();
        self.bad_shows();
    }

    pub fn push_plan(&mut self, shape: Shape, k: u64) {
        let case = self.case(Call { k, ..Call::new(PLAN, shape, 0) }, Fill::Random);
        self.list.push(case);
    }

    /// Every code and p with every column, those past the last, and far ones that are
    /// good ones when cut short.
    fn every_plan(&mut self) {
        for (code, p) in codes() {
            for k in (0..=p).chain([p + 2]).chain(outside(self.random.below(p as usize) as u64, p + 1)) {
                let cell = self.random.one_of(&[1, 2, 512, 4096]);
                self.push_plan(Shape::new(code, p, cell), k);
            }
        }
    }

    /// Good and bad parameters in all combinations.
    fn bad_plans(&mut self) {
        for code in some_codes() {
            for p in SOME_P {
                for cell in SOME_CELLS {
                    for k in [0, 3, u64::MAX] {
                        self.push_plan(Shape::new(code, p, cell), k);
                    }
                }
            }
        }
        for (shape, _) in any_p() {
            self.push_plan(shape, 1);
        }
    }

    /// A call of a run or a show with a stripe and a spare of the right lengths.
    fn spare_call(&self, operation: Operation, shape: Shape, k: u64) -> Call {
        let spare_length = self.shelf(shape).rows as u64 * shape.cell;
        Call { k, spare_length, ..self.good_call(operation, shape) }
    }

    /// A run of the whole column.
    pub fn whole(&self, shape: Shape, k: u64, plan: u64) -> Call {
        Call { plan, budget: shape.p - 1, ..self.spare_call(RUN, shape, k) }
    }

    /// Junk is found in the lost column, or in every cell that the plan doesn't read.
    pub fn push_run(&mut self, call: Call, fill: Fill, pieces: Pieces) {
        let k = call.k as usize;
        let good = !self.is_refused(&call);
        let base = match self.random.below(2) {
            _ if !good => Base::Empty,
            0 => Base::Unread(k, call.plan),
            _ => Base::Columns(k, k),
        };
        let lost = Lost { base, found: Found::Random, ..Lost::NONE };
        let case = Case { lost, pieces, ..self.case(call, fill) };
        self.list.push(case);
    }

    pub fn rule(&self, shape: Shape, k: u64) -> u64 {
        self.shelf(shape).rule(k as usize)
    }

    /// The row of column k that has no diagonal, as a plan's bit; 0 where there is none.
    pub fn forced(&self, shape: Shape, k: u64) -> u64 {
        let inside = self.shelf(shape).there[k as usize] as u64;
        if (1..shape.p).contains(&inside) {
            1 << (shape.p - 1 - inside)
        } else {
            0
        }
    }

    /// Any accepted plan.
    pub fn accepted(&mut self, shape: Shape, k: u64) -> u64 {
        let (all, shelf) = ((1 << (shape.p - 1)) - 1, self.shelf(shape));
        let last = k as usize + 1 == shelf.columns;
        let some = if last { all } else { self.random.number() & all & !self.forced(shape, k) };
        assert!(shelf.accepts(k as usize, some), "the plan is accepted");
        some
    }

    /// Every column of every p by the rule's plan, of stripes of every kind.
    fn every_run(&mut self) {
        for (p, k) in lost_columns() {
            for fill in FILLS {
                let shape = Shape::new(1, p, self.some_cell(p));
                self.push_run(self.whole(shape, k, self.rule(shape, k)), fill, Pieces::One);
            }
        }
    }

    /// Every plan with bits up to p, two above the last row. Those that are accepted, in
    /// pieces too, and of stripes that are not encoded.
    fn every_small_plan(&mut self) {
        for p in SMALL_PRIMES {
            (0..=p).for_each(|k| self.every_plan_of(Shape::new(1, p, 1), k));
        }
    }

    /// Of one column, with cells of any size.
    pub fn every_plan_of(&mut self, shape: Shape, k: u64) {
        for plan in 0..1 << (shape.p + 1) {
            let shape = Shape { cell: self.some_cell(shape.p), ..shape };
            let call = self.whole(shape, k, plan);
            self.push_run(call, Fill::Encoded, Pieces::One);
            if !self.is_refused(&call) {
                let fill = self.random.one_of(&FILLS);
                self.push_run(call, fill, Pieces::One);
                self.push_run(Call { budget: 1, ..call }, Fill::Encoded, Pieces::Same);
                self.push_run(Call { budget: 2, ..call }, fill, Pieces::Random);
            }
        }
    }

    fn other_plans(&mut self) {
        for (p, k) in lost_columns() {
            for _ in 0..8 {
                let shape = Shape::new(1, p, self.some_cell(p));
                let (plan, fill) = (self.accepted(shape, k), self.random.one_of(&FILLS));
                self.push_run(self.whole(shape, k, plan), Fill::Encoded, Pieces::One);
                self.push_run(self.whole(shape, k, plan), fill, Pieces::One);
            }
            let shape = Shape::new(1, p, self.some_cell(p));
            let plan = self.accepted(shape, k);
            self.push_run(self.whole(shape, k, plan), Fill::Encoded, Pieces::Random);
        }
    }

    /// Every column of every p in pieces of every size, by the rule's plan or another.
    fn every_piece(&mut self) {
        for (p, k) in lost_columns() {
            for budget in 1..=p - 1 {
                let shape = Shape::new(1, p, self.random.one_of(&SMALL_CELLS));
                let plan = self.rule_or_other(shape, k);
                let call = Call { budget, ..self.whole(shape, k, plan) };
                self.push_run(call, Fill::Encoded, Pieces::Same);
            }
        }
    }

    /// Every first row and some far past the last, with budgets from none to more than
    /// is left.
    fn every_first_row(&mut self) {
        for p in PRIMES {
            let far = outside(self.random.below(p as usize) as u64, p);
            for first in (0..p).chain(far) {
                let left = (p - 1).saturating_sub(first);
                for budget in [0, 1, 2, left.saturating_sub(1), left, left + 1, 1 << 32, u64::MAX] {
                    let k = self.random.below(p as usize + 1) as u64;
                    let shape = Shape::new(1, p, self.some_cell(p));
                    let plan = self.accepted(shape, k);
                    let fill = self.random.one_of(&[Fill::Encoded, Fill::Random]);
                    let call = Call { first, budget, ..self.whole(shape, k, plan) };
                    self.push_run(call, fill, Pieces::One);
                }
            }
        }
    }

    /// Accepted plans with one bit more or less: above the last row, the forced row, and
    /// any row of column p; all bits. A refused plan is refused for no rows too.
    fn refused_plans(&mut self) {
        for (p, k) in lost_columns() {
            self.refused_plans_of(Shape::new(1, p, 1), k);
        }
    }

    pub fn refused_plans_of(&mut self, shape: Shape, k: u64) {
        let (p, plan, forced) = (shape.p, self.accepted(shape, k), self.forced(shape, k));
        let last = k as usize + 1 == self.shelf(shape).columns;
        let above = [p - 1, p, p + 1, 31, 32, 63].map(|bit| plan | 1 << bit);
        let forced = (forced != 0).then_some(plan | forced);
        let missing = (0..p - 1).map(|bit| plan & !(1 << bit)).filter(|_| last);
        let others = [0, (1 << (p - 1)) - 1, 1 << 63, u64::MAX];
        for plan in above.into_iter().chain(forced).chain(missing).chain(others) {
            let shape = Shape { cell: self.random.one_of(&SMALL_CELLS), ..shape };
            let first = self.random.one_of(&[0, 0, 1, p - 1]);
            let budget = self.random.one_of(&[0, 1, p, u64::MAX]);
            let call = Call { first, budget, ..self.whole(shape, k, plan) };
            self.push_run(call, Fill::Encoded, Pieces::One);
        }
    }

    /// The listed cell sizes in all places of stripe and spare: the large ones for the
    /// smallest primes and the largest.
    fn run_shapes(&mut self) {
        for p in PRIMES {
            let large = LARGE_CELLS.into_iter().filter(|_| p <= 7 || p == 31);
            for cell in SMALL_CELLS.into_iter().chain([63, 65, 127, 128, 129, 255]).chain(large) {
                for stripe in self.places() {
                    for spare in self.places() {
                        self.some_run(Shape::new(1, p, cell));
                        let case = self.list.last_mut().expect("a run");
                        (case.loans[STRIPE].place, case.loans[SPARE].place) = (stripe, spare);
                    }
                }
            }
        }
        for cell in 1..=4096 {
            if cell % 31 == 0 || !(70..=4090).contains(&cell) {
                self.some_run(Shape::new(1, 3, cell));
            }
        }
    }

    /// A run of a column that needn't start at row 0 and mostly ends before the last.
    pub fn some_run(&mut self, shape: Shape) {
        let (k, p) = (self.some_column(shape), shape.p as usize);
        let plan = self.rule_or_other(shape, k);
        let first = if self.random.below(2) == 0 { 0 } else { self.random.below(p) as u64 };
        let budget = self.random.below(p + 2) as u64;
        let fill = self.random.one_of(&FILLS);
        self.push_run(Call { first, budget, ..self.whole(shape, k, plan) }, fill, Pieces::One);
    }

    fn some_column(&mut self, shape: Shape) -> u64 {
        self.random.below(self.shelf(shape).columns) as u64
    }

    fn rule_or_other(&mut self, shape: Shape, k: u64) -> u64 {
        if self.random.below(2) == 0 {
            self.rule(shape, k)
        } else {
            self.accepted(shape, k)
        }
    }

    /// Lost columns past the last, with plans that are accepted for some column.
    fn columns_outside(&mut self) {
        for p in PRIMES {
            for k in outside(self.random.below(p as usize) as u64, p + 1) {
                let plan = self.random.one_of(&[0, 1, (1 << (p - 1)) - 1]);
                let call = Call { k, plan, ..self.whole(Shape::new(1, p, 1), 0, 0) };
                self.push_run(call, Fill::Encoded, Pieces::One);
            }
        }
    }

    /// Stripes and spares a byte, a cell or a column too short or too long, and the one
    /// as long as the other, with all else good and with numbers outside or a bad plan.
    fn wrong_lengths(&mut self) {
        for (p, cell) in PRIMES.into_iter().flat_map(|p| [1, 3, 64].map(|cell| (p, cell))) {
            let good = self.whole(Shape::new(1, p, cell), 1, 0);
            let (stripe, spare) = (good.length, good.spare_length);
            let stripes = [0, 1, stripe - 1, stripe + 1, stripe - cell, stripe + cell, p * p * cell, spare];
            let spares = [0, 1, spare - 1, spare + 1, spare - cell, spare + cell, 2 * spare, stripe];
            let one = stripes.into_iter().map(|length| (length, spare));
            let other = spares.into_iter().map(|length| (stripe, length));
            for (length, spare_length) in one.chain(other).filter(|lengths| *lengths != (stripe, spare)) {
                let call = Call { length, spare_length, ..good };
                self.push_run(call, Fill::Random, Pieces::One);
                self.push_run(Call { k: p + 1, plan: u64::MAX, ..call }, Fill::Random, Pieces::One);
                self.push_show(Call { operation: SHOW, ..call });
                self.push_show(Call { operation: SHOW, done: p, ..call });
            }
        }
    }

    /// Parameters good and bad in all combinations: the lowest refusal number must come.
    fn bad_runs(&mut self) {
        for (call, p) in self.bad_lent(RUN) {
            for k in [1, p + 1] {
                for first in [0, p, u64::MAX] {
                    for plan in [0, u64::MAX] {
                        let call = Call { k, first, plan, budget: 1, ..call };
                        self.push_run(call, Fill::Random, Pieces::One);
                    }
                }
            }
        }
        for (shape, length) in any_p() {
            let [spare_length, _] = sides(shape.code, shape.p);
            let call = Call { spare_length, budget: 1, ..Call::new(RUN, shape, length) };
            self.push_run(call, Fill::Random, Pieces::One);
            self.push_show(Call { operation: SHOW, ..call });
        }
    }

    /// Good and bad shapes with stripes and spares of good and bad lengths, and the p of
    /// a good shape like it.
    fn bad_lent(&self, operation: Operation) -> Vec<(Call, u64)> {
        let mut calls = Vec::new();
        for shape in edge_shapes() {
            let good = self.mended(shape);
            let shelf = self.shelf(good);
            let cell = if shape.cell == 4097 { 4097 } else { good.cell };
            let (stripe, spare) = (shelf.cells() as u64 * cell, shelf.rows as u64 * cell);
            let near = [(stripe, spare), (stripe - 1, spare), (stripe, spare + 1), (stripe, spare - 1)];
            let far = [(0, spare), (stripe, 0), (u64::MAX, spare), (stripe, u64::MAX), (spare, stripe)];
            let past = [(stripe + (1 << 32), spare), (stripe, spare + (1 << 32)), (stripe, spare + cell)];
            for (length, spare_length) in near.into_iter().chain(far).chain(past) {
                calls.push((Call { spare_length, ..Call::new(operation, shape, length) }, good.p));
            }
        }
        calls
    }

    pub fn push_show(&mut self, call: Call) {
        let case = self.case(call, Fill::Random);
        self.list.push(case);
    }

    pub fn show(&self, shape: Shape, [k, done, row, column]: [u64; 4]) -> Call {
        Call { done, row, column, ..self.spare_call(SHOW, shape, k) }
    }

    /// Every lost column, rows done, row and column, up to one past the last of each.
    fn every_small_show(&mut self) {
        SMALL_PRIMES.into_iter().for_each(|p| self.every_show_of(Shape::new(1, p, 1)));
    }

    /// With cells of any size.
    pub fn every_show_of(&mut self, shape: Shape) {
        let (p, columns) = (shape.p, self.shelf(shape).columns as u64);
        for (k, done) in (0..=columns).flat_map(|k| (0..=p).map(move |done| (k, done))) {
            for (row, column) in (0..p).flat_map(|row| (0..=columns).map(move |column| (row, column))) {
                let cell = self.random.one_of(&[1, 2, 3, 7]);
                self.push_show(self.show(Shape { cell, ..shape }, [k, done, row, column]));
            }
        }
    }

    /// Every column and rows done of the other primes, with rows about those done.
    fn other_shows(&mut self) {
        for (p, k) in lost_columns().filter(|(p, _)| !SMALL_PRIMES.contains(p)) {
            for done in 0..=p {
                self.some_show(Shape::new(1, p, 1), k, done);
            }
        }
        for p in [3, 7, 31] {
            for cell in SMALL_CELLS.into_iter().chain(LARGE_CELLS) {
                for _ in 0..8 {
                    let k = self.random.below(p as usize + 1) as u64;
                    let row = self.random.below(p as usize - 1) as u64;
                    let done = row + self.random.below(2) as u64;
                    self.push_show(self.show(Shape::new(1, p, cell), [k, done, row, k]));
                }
            }
        }
    }

    /// Most of the lost column, and most of a row about those done. With cells of any size.
    pub fn some_show(&mut self, shape: Shape, k: u64, done: u64) {
        let columns = self.shelf(shape).columns;
        let column = if self.random.below(3) == 0 { self.random.below(columns + 1) as u64 } else { k };
        let any = self.random.below(shape.p as usize) as u64;
        let row = self.random.one_of(&[done, done.saturating_sub(1), 0, any]);
        let cell = self.some_cell(shape.p);
        self.push_show(self.show(Shape { cell, ..shape }, [k, done, row, column]));
    }

    /// Each number in turn far outside, with a cell that is refused as 10 otherwise and
    /// with one that is shown.
    fn shows_outside(&mut self) {
        for p in PRIMES {
            let cell = self.random.one_of(&[1, 64]);
            for good in [[1, 0, 1, 1], [1, 1, 0, 1], [1, 0, 1, 0]] {
                for place in 0..4 {
                    for far in outside(good[place], p + 1) {
                        let mut numbers = good;
                        numbers[place] = far;
                        self.push_show(self.show(Shape::new(1, p, cell), numbers));
                    }
                }
            }
        }
    }

    fn bad_shows(&mut self) {
        for (call, p) in self.bad_lent(SHOW) {
            for [k, done, row, column] in
                [[1, 1, 0, 1], [1, 0, 0, 1], [1, 0, 0, 0], [p + 1, 0, 0, 0], [1, p, 0, 1], [1, 0, p - 1, 1]]
            {
                self.push_show(Call { k, done, row, column, ..call });
            }
        }
    }

    pub fn random_run(&mut self) {
        let shape = Shape { code: 1, ..self.random_shape() };
        if self.random.below(8) > 0 {
            return self.some_run(shape);
        }
        let k = self.some_column(shape);
        let plan = self.accepted(shape, k);
        let call = Call { budget: self.random.below(4) as u64, ..self.whole(shape, k, plan) };
        self.push_run(call, Fill::Encoded, Pieces::Random);
    }

    pub fn random_plan_or_show(&mut self) {
        let shape = self.random_shape();
        let rdp = Shape { code: 1, ..shape };
        let columns = self.shelf(rdp).columns;
        let [k, done] = [self.random.below(columns + 1), self.random.below(shape.p as usize + 1)];
        if self.random.below(8) == 0 {
            return self.push_plan(shape, k as u64);
        }
        self.some_show(rdp, k as u64, done as u64);
    }
}
