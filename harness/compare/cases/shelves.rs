//! Which calls are compared on shelves with fewer disks, of RDP with a number m of data
//! columns, and with an m that is refused or isn't looked at.

use crate::cases::case::{Cases, New, Pieces};
use crate::cases::fills::{Fill, EXTENTS, FILLS};
use crate::cases::lists::{Base, Lost, Odd};
use crate::cases::loans::{BYTES, SPARE, STRIPE};
use crate::cases::shapes::{cell_count, edge_codes, NO_CODE};
use crate::second::balance::BALANCED_PLAN;
use crate::second::call::{Call, Operation, Shape};
use crate::second::encode::{BROKEN, ENCODE};
use crate::second::rebuild::{BAD_COLUMN, REBUILD_CELLS, REBUILD_COLUMNS};
use crate::second::shapes::{CODES, PRIMES};
use crate::second::spare::{PLAN, RUN, SHOW};
use crate::second::write::WRITE;

const EACH: [Operation; 10] =
    [ENCODE, BROKEN, WRITE, REBUILD_CELLS, REBUILD_COLUMNS, BAD_COLUMN, PLAN, RUN, SHOW, BALANCED_PLAN];

/// Up to here every cell of every shelf is tried, above some.
const SMALL: u64 = 7;
const SOME: usize = 8;

/// An m as it is told: whether it is given, and which.
type Told = (u64, u64);

/// Given in every way and not given, good, one past its range, and those that are good
/// ones when cut short.
fn tellings(p: u64) -> impl Iterator<Item = Told> {
    let near = [0, 1, p.wrapping_sub(2), p.wrapping_sub(1), p, p.wrapping_add(1)];
    let far = [0x101, 0x1_0001, 1 << 32, (1 << 32) + 1, 1 << 63, (1 << 63) + 1, u64::MAX - 1, u64::MAX];
    let data = near.into_iter().chain(far);
    data.flat_map(|data| [0, 1, 2, 1 << 32, 1 << 63, u64::MAX].map(|given| (given, data)))
}

fn some_tellings(p: u64) -> [Told; 7] {
    [(0, 2), (1, 2), (1, 0), (1, p), (1, u64::MAX), (2, 1), (u64::MAX, u64::MAX)]
}

impl Cases<'_> {
    pub fn shelves(&mut self) {
        for (p, m) in PRIMES.into_iter().flat_map(|p| (1..p).map(move |m| (p, m))) {
            self.short_encodes(p, m);
            self.short_writes(p, m);
            self.short_rebuilds(p, m);
            self.short_findings(p, m);
            self.short_plans(p, m);
            self.short_runs(p, m);
            self.short_shows(p, m);
            self.other_widths(p, m);
            self.past_the_last(p, m);
        }
        self.every_telling();
        self.bad_beside();
    }

    /// With cells of any size.
    fn short(&mut self, p: u64, m: u64) -> Shape {
        Shape::short(p, self.some_cell(p), m)
    }

    /// Every cell of a small shelf, some of another.
    fn some_cells(&mut self, p: u64, m: u64) -> Vec<usize> {
        let cells = self.shelf(Shape::short(p, 1, m)).cells();
        if p <= SMALL {
            return (0..cells).collect();
        }
        (0..SOME).map(|_| self.random.below(cells)).collect()
    }

    fn short_encodes(&mut self, p: u64, m: u64) {
        let shape = self.short(p, m);
        self.fills(shape, p <= SMALL);
        for n in self.some_cells(p, m) {
            let shape = Shape::short(p, 1 + self.random.below(3) as u64, m);
            for operation in [ENCODE, BROKEN] {
                let case = self.case(self.good_call(operation, shape), Fill::LoneByteInCell(n));
                self.list.push(case);
            }
        }
    }

    /// Every column and one past the last, each with the rows that have fewer parity cells,
    /// another, and one past the last.
    fn short_writes(&mut self, p: u64, m: u64) {
        for column in 0..=m as usize + 2 {
            let any = self.random.below(p as usize - 1);
            let forced = (p as usize - 1).saturating_sub(column);
            let small = (1..p as usize - 1).filter(|_| p <= SMALL);
            for row in [0, forced, any, p as usize - 1].into_iter().chain(small) {
                let shape = Shape::short(p, self.random.one_of(&[1, 2, 3, 7, 31]), m);
                let fill = self.random.one_of(&[Fill::Encoded, Fill::Random, Fill::CellDamaged]);
                let new = self.random.one_of(&[New::Random, New::Random, New::Same, New::OneByte]);
                self.push_write(self.write(shape, (row, column)), fill, new);
            }
        }
    }

    /// Every column and two columns of a small shelf, of others those about the last and
    /// any; then each kind of list, sets on the edge of being determined, and single cells.
    fn short_rebuilds(&mut self, p: u64, m: u64) {
        let columns = m as usize + 2;
        let any = self.random.below(columns);
        let picked = [0, any, columns - 3, columns - 2, columns - 1];
        let is_picked = |column: &usize| p <= SMALL || picked.contains(column);
        for b in (0..columns).filter(is_picked) {
            for a in (0..=b).filter(is_picked) {
                let (shape, fill) = (self.short(p, m), self.random.one_of(&FILLS));
                self.lost_columns(shape, Fill::Encoded, a, b);
                self.junk();
                self.lost_columns(shape, fill, a, b);
                self.lost_cells(shape, fill, Base::Columns(a, b), 0, 1);
                self.lost_cells(shape, fill, Base::Columns(a, b), 1, 1);
            }
        }
        let any = self.random.one_of(&FILLS);
        for fill in [Fill::Encoded, Fill::BitDamaged, any] {
            let shape = self.short(p, m);
            self.some_rebuilds(shape, fill);
            for more in 0..=2 {
                let less = self.random.below(4);
                self.lost_cells(shape, fill, Base::Determined, less, more);
            }
            let size = self.random.below(self.shelf(shape).equations() + 3);
            self.lost_cells(shape, fill, Base::Empty, 0, size);
        }
        for n in self.some_cells(p, m) {
            let shape = self.short(p, m);
            let fill = self.random.one_of(&[Fill::Encoded, Fill::BitDamaged]);
            self.lost_cells(shape, fill, Base::Cell(n), 0, 0);
            self.junk();
        }
    }

    /// Every column is the bad one, and cells of it; and two are.
    fn short_findings(&mut self, p: u64, m: u64) {
        for fill in FILLS {
            let shape = self.short(p, m);
            self.find(shape, fill);
        }
        for column in 0..m as usize + 2 {
            let (shape, extent) = (self.short(p, m), self.random.one_of(&EXTENTS));
            self.find(shape, Fill::ColumnAltered(column, extent));
            let other = self.random.below(m as usize + 2);
            if other != column && (p <= SMALL || self.random.below(4) == 0) {
                self.find(shape, Fill::TwoAltered(column, other, extent));
            }
        }
        for n in self.some_cells(p, m) {
            let shape = self.short(p, m);
            self.find(shape, Fill::CellAltered(n));
        }
    }

    /// Every column, and those that a stripe of all columns has.
    fn short_plans(&mut self, p: u64, m: u64) {
        for k in (0..=p + 1).chain([u64::MAX]) {
            let cell = self.random.one_of(&[1, 2, 512, 4096]);
            self.push_plan(Shape::short(p, cell, m), k);
        }
    }

    /// Every column by the rule's plan and by another, at once and in pieces.
    fn short_runs(&mut self, p: u64, m: u64) {
        for k in 0..=m + 1 {
            let (shape, fill) = (self.short(p, m), self.random.one_of(&FILLS));
            self.push_run(self.whole(shape, k, self.rule(shape, k)), Fill::Encoded, Pieces::One);
            let plan = self.accepted(shape, k);
            self.push_run(self.whole(shape, k, plan), fill, Pieces::One);
            if p <= 11 || self.random.below(4) == 0 {
                let call = Call { budget: 1 + self.random.below(4) as u64, ..self.whole(shape, k, plan) };
                self.push_run(call, Fill::Encoded, Pieces::Random);
            }
            if p <= 5 {
                self.every_plan_of(shape, k);
            }
            if p <= SMALL || k == m {
                self.refused_plans_of(shape, k);
            }
        }
        for _ in 0..SOME {
            let shape = self.short(p, m);
            self.some_run(shape);
        }
    }

    fn short_shows(&mut self, p: u64, m: u64) {
        if p <= 3 {
            self.every_show_of(Shape::short(p, 1, m));
        }
        for k in [0, m - 1, m, m + 1] {
            for _ in 0..4 {
                let done = self.random.below(p as usize + 1) as u64;
                self.some_show(Shape::short(p, 1, m), k, done);
            }
        }
    }

    /// Stripes that are as long as those of a column less or more, or of all columns, and a
    /// byte or a cell too short or too long.
    fn other_widths(&mut self, p: u64, m: u64) {
        let shape = Shape::short(p, self.random.one_of(&[1, 2, 3]), m);
        let (right, cell) = (self.shelf(shape).cells() as u64 * shape.cell, shape.cell);
        let (column, full) = ((p - 1) * cell, (p - 1) * (p + 1) * cell);
        for length in [right - column, right + column, full, right - 1, right + 1, right + cell] {
            if length != right {
                let bad = self.random.below(2) == 0;
                self.each_call(shape, length, bad);
            }
        }
    }

    /// Columns and cells that don't exist, most of them in a stripe of all columns.
    fn past_the_last(&mut self, p: u64, m: u64) {
        let shape = Shape::short(p, 1 + self.random.below(3) as u64, m);
        let far = self.random.one_of(&[p + 1, 1 << 32, u64::MAX]);
        for column in [m + 2, p - 1, p, far].into_iter().filter(|column| *column > m + 1) {
            self.push_write(self.write(shape, (0, column as usize)), Fill::Encoded, New::Random);
            let columns = self.random.one_of(&[[0, column], [column, m], [column, column]]);
            let call = Call { columns, ..self.good_call(REBUILD_COLUMNS, shape) };
            self.push_lost(call, Fill::Encoded, Lost::NONE);
            let number = column.wrapping_mul(p - 1);
            if number >= (m + 2) * (p - 1) {
                let lost = Lost { odd: Odd::Number(number), base: Base::Cell(0), ..Lost::NONE };
                self.push_lost(self.good_call(REBUILD_CELLS, shape), Fill::Encoded, lost);
            }
            let call = Call { k: column, ..self.whole(shape, 0, 0) };
            self.push_run(call, Fill::Encoded, Pieces::One);
            self.push_show(self.show(shape, [column, 1, 0, 0]));
            self.push_show(self.show(shape, [0, 1, 0, column]));
        }
    }

    /// Each call once on a stripe of that length: with numbers that a good stripe has, or
    /// with all of them bad, which is seen after the shape and the length.
    fn each_call(&mut self, shape: Shape, length: u64, bad: bool) {
        let [zero, one] = if bad { [u64::MAX; 2] } else { [0, 1] };
        let spare = shape.p.wrapping_sub(1).wrapping_mul(shape.cell).wrapping_add(bad as u64);
        let bytes = shape.cell.wrapping_add(bad as u64);
        for operation in EACH {
            let lends = self.calls[operation.0 as usize - 1].lends;
            let told = |buffer, length| if lends.contains(&buffer) { length } else { 0 };
            let call = Call {
                row: zero,
                column: zero,
                bytes_length: told(BYTES, bytes),
                columns: [zero; 2],
                spare_length: told(SPARE, spare),
                k: zero,
                plan: zero,
                first: zero,
                budget: 1,
                done: one,
                ..Call::new(operation, shape, told(STRIPE, length))
            };
            if operation == REBUILD_CELLS {
                self.push_lost(call, Fill::Random, Lost { odd: Odd::Number(zero), ..Lost::NONE });
                continue;
            }
            let case = self.case(call, Fill::Random);
            self.list.push(case);
        }
    }

    /// With stripes of all columns, and of as many as are told where those are few.
    fn each_length(&mut self, shape: Shape, bad: bool) {
        let column = shape.p.wrapping_sub(1).wrapping_mul(shape.cell);
        let full = cell_count(shape.code, shape.p).wrapping_mul(shape.cell);
        let told = column.wrapping_mul(shape.data.wrapping_add(2));
        self.each_call(shape, full, bad);
        if told != full && shape.data <= 40 {
            self.each_call(shape, told, bad);
        }
    }

    /// Every m as it may be told, for all codes; of all primes for RDP.
    fn every_telling(&mut self) {
        let rdp = PRIMES.map(|p| (1, p));
        let others = CODES[1..].iter().flat_map(|&code| [(code, 5), (code, 31)]);
        for (code, p) in rdp.into_iter().chain(others).chain([(0, 5), (NO_CODE, 5), (1, 4)]) {
            for (data_given, data) in tellings(p) {
                let bad = self.random.below(2) == 0;
                self.each_length(Shape { data_given, data, ..Shape::new(code, p, 1) }, bad);
            }
        }
    }

    /// Good and bad code, p and cell size beside a good and a bad m: the first refusal of
    /// 1, 2, 14, 3, 15, 4 and 5 must come.
    fn bad_beside(&mut self) {
        for code in edge_codes() {
            for p in [0, 4, 5, 32, u64::MAX] {
                for cell in [0, 3, 4097, u64::MAX] {
                    for (data_given, data) in some_tellings(p) {
                        let bad = self.random.below(2) == 0;
                        self.each_length(Shape { data_given, data, ..Shape::new(code, p, cell) }, bad);
                    }
                }
            }
        }
    }
}
