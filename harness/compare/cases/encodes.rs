//! Which encodes and counts of broken equations are compared.

use crate::cases::case::Cases;
use crate::cases::fills::Fill;
use crate::cases::loans::{Place, STRIPE};
use crate::cases::shapes::{any_p, cell_count, codes, some_codes, SOME_CELLS, SOME_P};
use crate::second::call::{Call, Operation, Shape};
use crate::second::encode::{BROKEN, ENCODE};
use crate::second::shapes::CODES;

const SMALL_CELLS: [u64; 10] = [1, 2, 3, 7, 31, 64, 127, 128, 129, 255];
const LARGE_CELLS: [u64; 3] = [512, 1000, 4096];

const ENCODE_FILLS: [Fill; 3] = [Fill::Random, Fill::Encoded, Fill::CellDamaged];
const BROKEN_FILLS: [Fill; 6] = [
    Fill::Encoded,
    Fill::BitDamaged,
    Fill::CellDamaged,
    Fill::ColumnDamaged,
    Fill::SeveralDamaged,
    Fill::Random,
];

impl Cases<'_> {
    pub fn encodes(&mut self) {
        self.bad_parameters();
        self.every_p();
        self.lone_bytes();
        self.listed_shapes();
    }

    fn push(&mut self, operation: Operation, shape: Shape, claimed: u64, fill: Fill) {
        let case = self.case(Call::new(operation, shape, claimed), fill);
        self.list.push(case);
    }

    fn push_at(&mut self, place: Place, operation: Operation, shape: Shape, claimed: u64, fill: Fill) {
        let mut case = self.case(Call::new(operation, shape, claimed), fill);
        case.loans[STRIPE].place = place;
        self.list.push(case);
    }

    /// Good and bad parameters in all combinations: of two bad ones, the lower
    /// refusal number must come.
    fn bad_parameters(&mut self) {
        for code in some_codes() {
            for p in SOME_P {
                for cell in SOME_CELLS {
                    self.lengths(Shape::new(code, p, cell));
                }
            }
        }
    }

    fn lengths(&mut self, shape: Shape) {
        let mended = self.mended(shape);
        let right = self.second.length(mended).expect("a good shape");
        let cells = right / mended.cell;
        let another_code = CODES.map(|code| cell_count(code, mended.p) * mended.cell);
        let another_cell = [cells, right - cells, right + cells];
        let near = [1, right - 1, right, right + 1];
        let beyond = [right + (1 << 32), right + (1 << 63), u64::MAX];
        for operation in [ENCODE, BROKEN] {
            for length in another_code.into_iter().chain(another_cell).chain(near).chain(beyond) {
                self.push(operation, shape, length, Fill::Random);
            }
            self.push(operation, shape, 0, Fill::Random);
            self.push_at(Place::Null, operation, shape, 0, Fill::Random);
        }
    }

    fn every_p(&mut self) {
        for (shape, length) in any_p() {
            for operation in [ENCODE, BROKEN] {
                self.push(operation, shape, length, Fill::Random);
            }
        }
    }

    /// Each cell of each code and prime in turn is the only one that isn't zero:
    /// shows which equations that cell lies in.
    fn lone_bytes(&mut self) {
        for (code, p) in codes() {
            let cells = self.full(code, p).cells();
            for n in 0..cells {
                let shape = Shape::new(code, p, 1 + self.random.below(3) as u64);
                for operation in [ENCODE, BROKEN] {
                    self.push(operation, shape, cells as u64 * shape.cell, Fill::LoneByteInCell(n));
                }
            }
        }
    }

    /// The listed cell sizes: the small ones for all primes in all places, the
    /// large ones for the smallest primes in all places and for the largest in one.
    fn listed_shapes(&mut self) {
        for (code, p) in codes() {
            for cell in SMALL_CELLS {
                self.fills(Shape::new(code, p, cell), true);
            }
            for cell in LARGE_CELLS.into_iter().filter(|_| p <= 7 || p == 31) {
                self.fills(Shape::new(code, p, cell), p <= 7);
            }
        }
    }

    pub fn fills(&mut self, shape: Shape, all_places: bool) {
        let length = self.second.length(shape).expect("a good shape");
        let encode = ENCODE_FILLS.map(|fill| (ENCODE, fill));
        let broken = BROKEN_FILLS.map(|fill| (BROKEN, fill));
        for (operation, fill) in encode.into_iter().chain(broken) {
            if !all_places {
                self.push(operation, shape, length, fill);
                continue;
            }
            for place in self.places() {
                self.push_at(place, operation, shape, length, fill);
            }
        }
    }

    pub fn random_encode(&mut self) {
        let shape = self.random_shape();
        let (operation, fill) = match self.random.below(3) {
            0 => (ENCODE, self.random.one_of(&ENCODE_FILLS)),
            _ => (BROKEN, self.random.one_of(&BROKEN_FILLS)),
        };
        let length = self.second.length(shape).expect("a good shape");
        self.push(operation, shape, length, fill);
    }
}
