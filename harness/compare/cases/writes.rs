//! Which small writes are compared.

use crate::cases::case::{Case, Cases, New};
use crate::cases::fills::Fill;
use crate::cases::loans::{BYTES, STRIPE};
use crate::cases::shapes::{any_p, codes, edge_shapes};
use crate::second::call::{Answer, Call, Shape};
use crate::second::layout::Position;
use crate::second::shelf::Shelf;
use crate::second::write::WRITE;

const SMALL_CELLS: [u64; 12] = [1, 2, 3, 7, 31, 64, 127, 128, 129, 255, 256, 257];
const LARGE_CELLS: [u64; 3] = [512, 1000, 4096];
const FILLS: [Fill; 3] = [Fill::Encoded, Fill::Random, Fill::CellDamaged];
const NEWS: [New; 3] = [New::Random, New::Same, New::OneByte];

/// How many parity cells depend on a position, as the documents count them.
pub fn known(case: &Case, _: &Shelf) -> Option<Answer> {
    let Call { shape: Shape { code, p, .. }, row, column, .. } = case.call;
    let on_last = row + column == p - 1;
    Some(Answer::counted(match code {
        1 if row > 0 && !on_last => 3,
        4 if on_last => p,
        _ => 2,
    }))
}

impl Cases<'_> {
    pub fn writes(&mut self) {
        self.every_position();
        self.write_shapes();
        self.bad_writes();
        self.wrong_new_bytes();
        self.far_positions();
        self.write_any_p();
    }

    pub fn push_write(&mut self, call: Call, fill: Fill, new: New) {
        let case = Case { new, ..self.case(call, fill) };
        self.list.push(case);
    }

    pub fn write(&self, shape: Shape, (row, column): Position) -> Call {
        let length = self.second.length(shape).expect("a good shape");
        let (row, column) = (row as u64, column as u64);
        Call { row, column, bytes_length: shape.cell, ..Call::new(WRITE, shape, length) }
    }

    /// A random position of data or of parity.
    fn position(&mut self, shape: Shape, parity: bool) -> Position {
        let shelf = self.shelf(shape);
        loop {
            let position = (self.random.below(shelf.rows), self.random.below(shelf.columns));
            if shelf.is_parity(position) == parity {
                return position;
            }
        }
    }

    /// Every row and column from 0 to p + 2, so that all that lie in the stripe are
    /// among them, swapped too. Above p = 13 one call for each, else three.
    fn every_position(&mut self) {
        for (code, p) in codes() {
            let side = p as usize + 3;
            for position in (0..side).flat_map(|row| (0..side).map(move |column| (row, column))) {
                let cell = self.random.one_of(&[1, 2, 3, 7]);
                let call = self.write(Shape::new(code, p, cell), position);
                let (fill, new) = (self.random.one_of(&FILLS), self.random.one_of(&NEWS));
                if p > 13 {
                    self.push_write(call, fill, new);
                    continue;
                }
                self.push_write(call, Fill::Encoded, New::Random);
                self.push_write(call, Fill::Random, New::Random);
                self.push_write(call, fill, New::Same);
            }
        }
    }

    /// The listed cell sizes: the small ones for all primes in all places, the
    /// large ones for the smallest primes in all places and for the largest in one.
    fn write_shapes(&mut self) {
        for (code, p) in codes() {
            for cell in SMALL_CELLS {
                self.all_places(Shape::new(code, p, cell));
            }
            for cell in LARGE_CELLS {
                let shape = Shape::new(code, p, cell);
                if p <= 7 {
                    self.all_places(shape);
                } else if p == 31 {
                    self.random_data(shape);
                }
            }
        }
    }

    fn all_places(&mut self, shape: Shape) {
        for stripe in self.places() {
            for bytes in self.places() {
                self.random_data(shape);
                let case = self.list.last_mut().expect("a write");
                (case.loans[STRIPE].place, case.loans[BYTES].place) = (stripe, bytes);
            }
        }
    }

    /// A write into any data cell.
    fn random_data(&mut self, shape: Shape) {
        let position = self.position(shape, false);
        let (fill, new) = (self.random.one_of(&FILLS), self.random.one_of(&NEWS));
        self.push_write(self.write(shape, position), fill, new);
    }

    /// Every parameter good, at 0, one past its range and at its most, in all
    /// combinations: the lowest refusal number must come.
    fn bad_writes(&mut self) {
        edge_shapes().for_each(|shape| self.bad_operands(shape));
    }

    fn bad_operands(&mut self, shape: Shape) {
        let good = self.mended(shape);
        let shelf = self.shelf(good);
        let cell = if shape.cell == 4097 { 4097 } else { good.cell };
        let right = shelf.cells() as u64 * cell;
        let [rows, columns] = [shelf.rows, shelf.columns].map(|end| {
            let end = end as u64;
            [0, end / 2, end - 1, end, u64::MAX]
        });
        for length in [0, right, right + 1, u64::MAX] {
            for row in rows {
                for column in columns {
                    for bytes_length in [0, cell, cell + 1, u64::MAX] {
                        let call = Call { row, column, bytes_length, ..Call::new(WRITE, shape, length) };
                        self.push_write(call, Fill::Random, New::Random);
                    }
                }
            }
        }
    }

    /// New bytes that are not one cell long, for data, for parity and for outside.
    fn wrong_new_bytes(&mut self) {
        for (code, p) in codes().filter(|(_, p)| [3, 7].contains(p)) {
            let columns = self.full(code, p).columns;
            for cell in SMALL_CELLS.into_iter().chain(LARGE_CELLS) {
                let shape = Shape::new(code, p, cell);
                let (data, parity) = (self.position(shape, false), self.position(shape, true));
                let another = self.random.one_of(&SMALL_CELLS);
                let near = [0, cell - 1, cell + 1, another, 2 * cell, 4096];
                let beyond = [cell + (1 << 8), cell + (1 << 32), cell + (1 << 63), u64::MAX];
                for bytes_length in near.into_iter().chain(beyond) {
                    for position in [data, parity, (data.0, columns)] {
                        let call = Call { bytes_length, ..self.write(shape, position) };
                        self.push_write(call, Fill::Encoded, New::Random);
                    }
                }
            }
        }
    }

    /// Rows and columns that look like good ones when cut short, and those that name
    /// a cell of the stripe by its number alone.
    fn far_positions(&mut self) {
        for (code, p) in codes() {
            let shape = Shape::new(code, p, 1);
            let rows = self.full(code, p).rows as u64;
            let position = self.position(shape, false);
            let call = self.write(shape, position);
            let mut push =
                |row, column| self.push_write(Call { row, column, ..call }, Fill::Encoded, New::Random);
            for far in [1 << 8, 1 << 16, 1 << 32, 1 << 62, 1 << 63] {
                push(call.row + far, call.column);
                push(call.row, call.column + far);
                push(call.row + far, call.column + far);
            }
            push(call.row.wrapping_sub(rows), call.column + 1);
            push(call.row + rows, call.column.wrapping_sub(1));
            push(call.row + rows * call.column, 0);
        }
    }

    fn write_any_p(&mut self) {
        for (shape, length) in any_p() {
            let call = Call { bytes_length: 1, ..Call::new(WRITE, shape, length) };
            self.push_write(call, Fill::Random, New::Random);
        }
    }

    /// Mostly a write that is carried out; at times to parity or with wrong new bytes.
    pub fn random_write(&mut self) {
        let shape = self.random_shape();
        let parity = self.random.below(16) == 0;
        let position = self.position(shape, parity);
        let mut call = self.write(shape, position);
        if self.random.below(16) == 0 {
            call.bytes_length = self.random.below(4200) as u64;
        }
        let (fill, new) = (self.random.one_of(&FILLS), self.random.one_of(&NEWS));
        self.push_write(call, fill, new);
    }
}
