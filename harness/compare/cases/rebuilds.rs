//! Which rebuilds are compared.

use crate::cases::case::{Back, Case, Cases, Filled};
use crate::cases::fills::{Fill, FILLS};
use crate::cases::lists::{Base, Form, Found, Lost, Odd, FORMS};
use crate::cases::loans::{LOST, STRIPE};
use crate::cases::shapes::{any_p, codes, edge_shapes, outside, LARGE_CELLS, SMALL_CELLS};
use crate::second::call::{Answer, Call, Lent, Shape};
use crate::second::rebuild::{BAD_COLUMN, REBUILD_CELLS, REBUILD_COLUMNS};
use crate::second::shelf::Shelf;

pub fn known_cells(case: &Case, shelf: &Shelf) -> Option<Answer> {
    match case.lost.determined(shelf)? {
        false => Some(Answer::refused(11)),
        true => (case.fill == Fill::Encoded).then_some(Answer::refused(0)),
    }
}

/// Two columns have as many cells as there are equations: any bytes fit.
pub fn known_columns(case: &Case, _: &Shelf) -> Option<Answer> {
    let [a, b] = case.call.columns;
    (a != b || case.fill == Fill::Encoded).then_some(Answer::refused(0))
}

/// The stripe as it was before cells were lost.
pub fn back<'a>(_: &Case, filled: &'a Filled, _: &Answer, after: &'a Lent) -> Back<'a> {
    Some([&filled.whole, &after.stripe])
}

impl Cases<'_> {
    pub fn rebuilds(&mut self) {
        self.every_lost_cell();
        self.every_two_columns();
        self.every_equation();
        self.every_size();
        self.on_the_edge();
        self.rebuild_shapes();
        self.long_lists();
        self.numbers_outside();
        self.bad_rebuilds();
        self.rebuild_any_p();
    }

    pub fn push_lost(&mut self, call: Call, fill: Fill, lost: Lost) {
        let empty = lost.base == Base::Empty && lost.more == 0 && lost.odd == Odd::Nothing;
        let mut case = Case { lost, ..self.case(call, fill) };
        if case.row.lends.contains(&LOST) {
            case.loans[LOST].place = self.list_place(empty);
        }
        case.loans[STRIPE].sealed = self.random.below(2) == 0;
        self.list.push(case);
    }

    /// Some base less and more cells, in any order. In most lost cells junk is found.
    fn some_lost(&mut self, base: Base, less: usize, more: usize) -> Lost {
        let form = self.random.one_of(&FORMS);
        let found = match self.random.below(8) {
            0 => Found::Left,
            1 => Found::Zero,
            _ => Found::Random,
        };
        Lost { base, less, more, form, found, odd: Odd::Nothing }
    }

    /// Has junk found in the lost cells of the last case, so that it shows whether they
    /// come back.
    pub fn junk(&mut self) {
        self.list.last_mut().expect("a case").lost.found = Found::Random;
    }

    pub fn lost_cells(&mut self, shape: Shape, fill: Fill, base: Base, less: usize, more: usize) {
        let lost = self.some_lost(base, less, more);
        self.push_lost(self.good_call(REBUILD_CELLS, shape), fill, lost);
    }

    /// The columns in either order.
    pub fn lost_columns(&mut self, shape: Shape, fill: Fill, a: usize, b: usize) {
        let mut columns = [a as u64, b as u64];
        self.random.shuffle(&mut columns);
        let lost = self.some_lost(Base::Told, 0, 0);
        self.push_lost(Call { columns, ..self.good_call(REBUILD_COLUMNS, shape) }, fill, lost);
    }

    /// Each cell of each code and prime in turn is the only one lost: of an encoded
    /// stripe, and of one in which a bit is wrong, mostly in a survivor.
    fn every_lost_cell(&mut self) {
        for (code, p) in codes() {
            for n in 0..self.full(code, p).cells() {
                for fill in [Fill::Encoded, Fill::BitDamaged] {
                    let shape = Shape::new(code, p, self.some_cell(p));
                    self.lost_cells(shape, fill, Base::Cell(n), 0, 0);
                    self.junk();
                }
            }
        }
    }

    /// Every column and every two columns of each code and prime: as columns and as a
    /// list of cells; with a cell more, which is 11; less a cell; and less a cell but
    /// with another in its place.
    fn every_two_columns(&mut self) {
        for (code, p) in codes() {
            let columns = self.full(code, p).columns;
            for (a, b) in (0..columns).flat_map(|b| (0..=b).map(move |a| (a, b))) {
                let shape = Shape::new(code, p, self.some_cell(p));
                let (base, fill) = (Base::Columns(a, b), self.random.one_of(&FILLS));
                self.lost_columns(shape, Fill::Encoded, a, b);
                self.junk();
                self.lost_cells(shape, Fill::Encoded, base, 0, 0);
                self.junk();
                self.lost_columns(shape, fill, a, b);
                self.lost_cells(shape, fill, base, 0, 1);
                self.lost_cells(shape, fill, base, 1, 0);
                self.lost_cells(shape, fill, base, 1, 1);
            }
        }
    }

    /// All cells of each equation of each code and prime: a cell or two less, and with another
    /// in the place of one. Many of these are just determined, or just aren't.
    fn every_equation(&mut self) {
        for (code, p) in codes() {
            for k in 0..self.full(code, p).equations() {
                let shape = Shape::new(code, p, self.some_cell(p));
                let fill = self.random.one_of(&FILLS);
                for (less, more) in [(0, 0), (1, 0), (2, 0), (1, 1)] {
                    self.lost_cells(shape, fill, Base::Equation(k), less, more);
                }
                self.lost_cells(shape, Fill::Encoded, Base::Equation(k), 1, 0);
                self.junk();
            }
        }
    }

    /// Random sets of every size, from none to all.
    fn every_size(&mut self) {
        for (code, p) in codes() {
            for size in 0..=self.full(code, p).cells() {
                let shape = Shape::new(code, p, self.random.one_of(&[1, 1, 2, 3]));
                let fill = self.random.one_of(&FILLS);
                self.lost_cells(shape, fill, Base::Empty, 0, size);
            }
        }
    }

    /// Sets that are just determined and sets that just aren't: random ones up to a
    /// few cells more than there are equations, largest determined sets less some
    /// cells, and those with one or two others in their place.
    fn on_the_edge(&mut self) {
        for (code, p) in codes() {
            let equations = self.full(code, p).equations();
            for k in 0..=equations + 2 {
                for fill in [Fill::Encoded, Fill::BitDamaged, Fill::SeveralDamaged] {
                    let shape = Shape::new(code, p, self.some_cell(p));
                    self.lost_cells(shape, fill, Base::Empty, 0, k);
                    self.lost_cells(shape, fill, Base::Determined, k, 0);
                    self.lost_cells(shape, fill, Base::Determined, k, 1);
                    self.lost_cells(shape, fill, Base::Determined, k, 2);
                }
            }
        }
    }

    /// The listed cell sizes: for the smallest primes with all fills in all places, for
    /// the others the small sizes only, in one place; for the largest prime some fills
    /// of the large sizes too.
    fn rebuild_shapes(&mut self) {
        for (code, p) in codes() {
            for cell in SMALL_CELLS {
                self.rebuild_fills(Shape::new(code, p, cell), &FILLS);
            }
            for cell in LARGE_CELLS {
                let shape = Shape::new(code, p, cell);
                if p <= 7 {
                    self.rebuild_fills(shape, &FILLS);
                } else if p == 31 {
                    self.rebuild_fills(shape, &[Fill::Encoded, Fill::LateDamaged, Fill::Random]);
                }
            }
        }
    }

    fn rebuild_fills(&mut self, shape: Shape, fills: &[Fill]) {
        let places = if shape.p <= 7 { 3 } else { 1 };
        for &fill in fills {
            for place in self.places().into_iter().take(places) {
                let start = self.list.len();
                self.some_rebuilds(shape, fill);
                if places > 1 {
                    self.list[start..].iter_mut().for_each(|case| case.loans[STRIPE].place = place);
                }
            }
        }
    }

    /// A rebuild of each kind: one column, two, no cell, a few cells, a part of a column
    /// and another cell, a determined set, and one on the edge.
    pub fn some_rebuilds(&mut self, shape: Shape, fill: Fill) {
        let shelf = self.shelf(shape);
        let (columns, equations) = (shelf.columns, shelf.equations());
        let [a, b] = [self.random.below(columns), self.random.below(columns)];
        let (few, most) = (1 + self.random.below(4), self.random.below(equations));
        self.lost_columns(shape, fill, a, a);
        self.lost_columns(shape, fill, a, b);
        self.lost_cells(shape, fill, Base::Empty, 0, 0);
        self.lost_cells(shape, fill, Base::Empty, 0, few);
        self.lost_cells(shape, fill, Base::Columns(a, a), few, 1);
        self.lost_cells(shape, fill, Base::Determined, most, 0);
        self.lost_cells(shape, fill, Base::Determined, 1, 1);
    }

    /// Lists many times as long as the stripe has cells.
    fn long_lists(&mut self) {
        for (code, p) in codes().filter(|(_, p)| [3, 31].contains(p)) {
            let (shape, cells) = (Shape::new(code, p, 3), self.full(code, p).cells() as u64);
            for (base, more) in [(Base::Columns(0, 1), 0), (Base::Columns(0, 2), 1), (Base::Cell(5), 0)] {
                let lost = Lost { form: Form::Huge, ..self.some_lost(base, 0, more) };
                for odd in [Odd::Nothing, Odd::Number(cells)] {
                    let lost = Lost { odd, ..lost };
                    self.push_lost(self.good_call(REBUILD_CELLS, shape), Fill::Encoded, lost);
                }
            }
        }
    }

    /// Cell numbers and columns one past and far past the last, and those that are good
    /// ones when cut short, or whose place in the stripe is, counted modulo 2^64.
    fn numbers_outside(&mut self) {
        for (code, p) in codes() {
            let (cells, columns) = (self.full(code, p).cells(), self.full(code, p).columns);
            let shape = Shape::new(code, p, self.random.one_of(&[1, 64]));
            let (n, column) = (self.random.below(cells), self.random.below(columns));
            for outside in outside(n as u64, cells as u64) {
                for (base, more) in [(Base::Empty, 0), (Base::Cell(n), 0), (Base::Columns(0, column), 1)] {
                    let lost = Lost { odd: Odd::Number(outside), ..self.some_lost(base, 0, more) };
                    self.push_lost(self.good_call(REBUILD_CELLS, shape), Fill::Encoded, lost);
                }
            }
            for outside in outside(column as u64, columns as u64) {
                for columns in [[outside, column as u64], [column as u64, outside], [outside; 2]] {
                    let call = Call { columns, ..self.good_call(REBUILD_COLUMNS, shape) };
                    self.push_lost(call, Fill::Encoded, Lost::NONE);
                }
            }
        }
    }

    /// Every parameter good, at 0, one past its range and at its most, in all
    /// combinations, with stripes one byte short and long, and lists that are empty (NULL
    /// too), good, or name a cell outside: the lowest refusal number must come.
    fn bad_rebuilds(&mut self) {
        edge_shapes().for_each(|shape| self.bad_lengths(shape));
    }

    fn bad_lengths(&mut self, shape: Shape) {
        let good = self.mended(shape);
        let shelf = self.shelf(good);
        let (cells, columns) = (shelf.cells() as u64, shelf.columns as u64);
        let right = cells * if shape.cell == 4097 { 4097 } else { good.cell };
        for length in [0, right - 1, right, right + 1, u64::MAX] {
            self.bad_lists(Call::new(REBUILD_CELLS, shape, length), cells);
            for a in [0, columns - 1, columns, u64::MAX] {
                for b in [0, columns - 1, columns, u64::MAX] {
                    let call = Call { columns: [a, b], ..Call::new(REBUILD_COLUMNS, shape, length) };
                    self.push_lost(call, Fill::Random, Lost::NONE);
                }
            }
            self.push_lost(Call::new(BAD_COLUMN, shape, length), Fill::Random, Lost::NONE);
        }
    }

    fn bad_lists(&mut self, call: Call, cells: u64) {
        let (none, some) = (Lost::NONE, self.some_lost(Base::Empty, 0, 3));
        for odd in
            [Odd::Nothing, Odd::Number(0), Odd::Number(cells - 1), Odd::Number(cells), Odd::Number(u64::MAX)]
        {
            self.push_lost(call, Fill::Random, Lost { odd, ..none });
            self.push_lost(call, Fill::Random, Lost { odd, ..some });
        }
        if self.is_refused(&call) {
            self.push_lost(call, Fill::Random, Lost { odd: Odd::Absent, ..some });
        }
    }

    fn rebuild_any_p(&mut self) {
        for (shape, length) in any_p() {
            for operation in [REBUILD_CELLS, REBUILD_COLUMNS, BAD_COLUMN] {
                let call = Call { columns: [0, 1], ..Call::new(operation, shape, length) };
                self.push_lost(call, Fill::Random, Lost { base: Base::Cell(0), ..Lost::NONE });
            }
        }
    }

    /// Columns and cells, most sets not far from being determined.
    pub fn random_rebuild(&mut self) {
        let shape = self.random_shape();
        let fill = self.random.one_of(&FILLS);
        let shelf = self.shelf(shape);
        let (columns, equations) = (shelf.columns, shelf.equations());
        let [a, b] = [self.random.below(columns), self.random.below(columns)];
        let [less, more] = [self.random.below(6), self.random.below(3)];
        match self.random.below(8) {
            0 => self.lost_columns(shape, fill, a, a),
            1 => self.lost_columns(shape, fill, a, b),
            2 => self.lost_cells(shape, fill, Base::Columns(a, a), less, more),
            3 => self.lost_cells(shape, fill, Base::Columns(a, b), less, more),
            4 => self.lost_cells(shape, fill, Base::Determined, less, more),
            5 => {
                let less = self.random.below(equations);
                self.lost_cells(shape, fill, Base::Determined, less, more);
            }
            6 => self.lost_cells(shape, fill, Base::Empty, 0, less + more),
            _ => {
                let size = self.random.below(equations + 3);
                self.lost_cells(shape, fill, Base::Empty, 0, size);
            }
        }
    }
}
