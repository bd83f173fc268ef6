//! Which jobs are compared.

use crate::cases::case::{Back, Case, Cases, Filled};
use crate::cases::fields::{Change, Room, Sent};
use crate::cases::fills::{Fill, FILLS};
use crate::cases::lists::{Base, Form, Found, Lost, Odd, FORMS};
use crate::cases::loans::{Place, BYTES, SPARE};
use crate::cases::shapes::{codes, NO_CODE};
use crate::second::call::{Answer, Call, Lent, Shape};
use crate::second::job::{JOB, USUAL_CELL};
use crate::second::shelf::Shelf;

/// The most bytes of a stripe and lost cells in a job, and the longest job, which has
/// both.
const MOST: u64 = 32_768;
const MOST_LOST: usize = 2048;
const LONGEST: usize = 4 + 4 + 5 + (3 + 2 * MOST_LOST) + (3 + MOST as usize);

/// The job of the scope document's example, with and without the cell size told, and
/// others with stripes and lists longer than 256 bytes.
const SMALL: Shape = Shape::new(1, 3, 1);
const BASES: [(Shape, bool); 5] = [
    (SMALL, true),
    (Shape::new(1, 3, USUAL_CELL), false),
    (Shape::new(2, 5, USUAL_CELL), false),
    (Shape::new(3, 11, 259), true),
    (Shape::new(4, 3, USUAL_CELL), false),
];

/// Cell sizes of jobs with and without theirs told: the one that is meant where none is,
/// the one that was meant before, and sizes about them.
const UNTOLD: [u64; 8] = [1, 511, 512, 513, USUAL_CELL - 1, USUAL_CELL, USUAL_CELL + 1, 2 * USUAL_CELL];

/// As for the rebuild of these cells, where the job says so and there is room; 5 where its
/// cells are not of the size that is meant, and it doesn't tell theirs.
pub fn known(case: &Case, shelf: &Shelf) -> Option<Answer> {
    let sent = case.sent.filter(|sent| sent.change == Change::Nothing && sent.room == Room::Enough)?;
    if !sent.is_plain(case.call.shape) {
        return Some(Answer::answered(5, 4));
    }
    match case.lost.determined(shelf)? {
        false => Some(Answer::answered(11, 4)),
        true if case.fill == Fill::Encoded => Some(Answer::answered(0, 7 + case.call.length)),
        true => None,
    }
}

/// The stripe as it was before cells were lost, in the answer's last field.
pub fn back<'a>(case: &Case, filled: &'a Filled, answer: &Answer, after: &'a Lent) -> Back<'a> {
    case.sent.filter(|sent| sent.is_plain(case.call.shape))?;
    let answer = after.spare.get(..answer.length as usize)?;
    Some([&filled.whole, &answer[7..]])
}

impl Cases<'_> {
    pub fn jobs(&mut self) {
        self.every_kind();
        self.untold_cells();
        self.changed_fields();
        self.cut_jobs();
        self.limits();
        self.bad_numbers();
        self.bad_in_both();
        self.rooms();
    }

    /// Of a call of any numbers.
    fn push_job(&mut self, shape: Shape, length: u64, fill: Fill, lost: Lost, sent: Sent) {
        // The job and its answer are made later; most are longer than nothing.
        let call = Call { bytes_length: 1, spare_length: 1, ..Call::new(JOB, shape, length) };
        let mut case = Case { lost, sent: Some(sent), ..self.case(call, fill) };
        if sent.change == Change::Cut(0) && self.random.below(2) == 0 {
            case.loans[BYTES].place = Place::Null;
        }
        if sent.room == Room::Of(0) && self.random.below(2) == 0 {
            case.loans[SPARE].place = Place::Null;
        }
        self.list.push(case);
    }

    /// Of a good shape, with a stripe of the right length.
    fn job(&mut self, shape: Shape, fill: Fill, lost: Lost, sent: Sent) {
        let length = self.second.length(shape).expect("a good shape");
        self.push_job(shape, length, fill, lost, sent);
    }

    /// One of column 0 and column 1 lost, which comes back.
    fn good_job(&mut self, shape: Shape, sent: Sent) {
        let columns = self.random.one_of(&[(0, 0), (0, 1)]);
        let lost = self.job_lost(Base::Columns(columns.0, columns.1), 0, 0);
        self.job(shape, Fill::Encoded, lost, sent);
    }

    fn job_lost(&mut self, base: Base, less: usize, more: usize) -> Lost {
        // A long list may not go into a field.
        let form = self.random.one_of(&FORMS[..4]);
        Lost { base, less, more, form, found: Found::Random, odd: Odd::Nothing }
    }

    /// Every code and p, with cells of one byte up to the largest that fit: each kind of
    /// list, of stripes that are encoded and others.
    fn every_kind(&mut self) {
        for (code, p) in codes() {
            let (cells, columns) = (self.full(code, p).cells() as u64, self.full(code, p).columns);
            let largest = (MOST / cells).min(4096);
            let any = 1 + self.random.below(largest as usize) as u64;
            for cell in [1, 3, any, largest] {
                let shape = Shape::new(code, p, cell);
                let fill = self.random.one_of(&FILLS);
                let [a, b] = [0, 1].map(|_| self.random.below(columns));
                for (fill, base, less, more) in [
                    (fill, Base::Empty, 0, 0),
                    (Fill::Encoded, Base::Columns(a, b), 0, 0),
                    (fill, Base::Columns(a, a), 1, 1),
                    (Fill::Encoded, Base::Determined, 1, 0),
                    (fill, Base::Determined, 0, 1),
                ] {
                    let lost = self.job_lost(base, less, more);
                    self.job(shape, fill, lost, Sent::PLAIN);
                }
            }
        }
    }

    /// Every code and p whose stripe fits: cells of the size that is meant where none is
    /// told, and of others, whose stripe is then of the wrong length; told and not.
    fn untold_cells(&mut self) {
        let shapes = codes().flat_map(|(code, p)| UNTOLD.map(|cell| Shape::new(code, p, cell)));
        for shape in shapes {
            if self.second.length(shape).is_some_and(|length| length <= MOST) {
                self.good_job(shape, Sent { cell_told: false, ..Sent::PLAIN });
                self.good_job(shape, Sent::PLAIN);
            }
        }
    }

    /// Each field missing, doubled, in the place of another, with another tag, with a
    /// wrong length told, and with a content that is shorter or longer.
    fn changed_fields(&mut self) {
        for (shape, cell_told) in BASES {
            for tag in 1..=5 {
                let others = (0..=8).chain([0x10, 0x40, 0xFF]).filter(|other| *other != tag);
                let swapped = (tag + 1..=5).map(|other| Change::Swapped(tag, other));
                let tags = others.map(|other| Change::Tag(tag, other));
                let told = [-256, -2, -1, 1, 2, 256, 0x8000].map(|more| Change::Told(tag, more));
                let length = if tag <= 3 { 0 } else { 8 };
                let long = (length..length + 5).map(|length| Change::Long(tag, length));
                let whole = [Change::Without(tag), Change::Twice(tag), Change::LowFirst(tag)];
                for change in whole.into_iter().chain(swapped).chain(told).chain(long).chain(tags) {
                    self.good_job(shape, Sent { cell_told, change, room: Room::Enough });
                }
            }
        }
    }

    /// Cut after every byte of the small job and in the middle of larger ones; bytes after
    /// the last field; far more bytes than the longest job has.
    fn cut_jobs(&mut self) {
        for (shape, cell_told) in BASES {
            let whole = if shape == SMALL { 36 } else { 24 };
            let cut = (0..whole).chain([100, 1000, 4000]).map(Change::Cut);
            let more = [1, 2, 3, 4, 8, 1000, 100_000].map(Change::More);
            for change in cut.chain(more) {
                self.good_job(shape, Sent { cell_told, change, room: Room::Enough });
            }
        }
    }

    /// As many lost cells and stripe bytes as there may be, one more, and as many as a
    /// length can tell; the longest job, and one byte after it.
    fn limits(&mut self) {
        let full = Shape::new(1, 3, 4096);
        for shape in [SMALL, full, Shape { code: 2, ..full }] {
            for length in [0, 1, 4094, 4095, 4096, 4097, 4098, 4100, 8192, 65_534, 65_535] {
                self.good_job(shape, Sent { change: Change::Long(4, length), ..Sent::PLAIN });
            }
            for length in [0, 7, 8, 9, 4096, 32_767, 32_768, 32_769, 65_535] {
                self.good_job(shape, Sent { change: Change::Long(5, length), ..Sent::PLAIN });
            }
        }
        let lost = Lost { form: Form::Filled(MOST_LOST), ..self.job_lost(Base::Columns(0, 3), 0, 0) };
        let longer = [1, 2, 3, 100_000].map(Change::More);
        let shorter = [LONGEST, LONGEST - 1, LONGEST - 4096].map(Change::Cut);
        for change in longer.into_iter().chain(shorter).chain([Change::Nothing]) {
            self.job(full, Fill::Encoded, lost, Sent { change, ..Sent::PLAIN });
        }
        for odd in [Odd::Nothing, Odd::Number(0), Odd::Number(7), Odd::Number(8), Odd::Number(65_535)] {
            let lost = Lost { odd, ..self.job_lost(Base::Columns(1, 2), 1, 0) };
            for change in [Change::Nothing, Change::Long(4, 4096), Change::Long(4, 4098)] {
                for shape in [SMALL, full] {
                    self.job(shape, Fill::Encoded, lost, Sent { change, ..Sent::PLAIN });
                }
            }
        }
    }

    /// Good and bad numbers in all combinations: the lowest refusal number must come.
    fn bad_numbers(&mut self) {
        for code in [0, 1, 3, 4, NO_CODE, 255] {
            for p in [0, 3, 4, 33, 255] {
                for cell in [0, 1, 4096, 4097, 65_535] {
                    let mended = self.mended(Shape::new(code, p, cell));
                    let cells = self.shelf(mended).cells() as u64;
                    let right = (cells * mended.cell).min(MOST);
                    for (length, odd) in
                        [(right, Odd::Nothing), (right - 1, Odd::Nothing), (right, Odd::Number(cells))]
                    {
                        let lost = Lost { odd, ..self.job_lost(Base::Cell(1), 0, 0) };
                        self.push_job(Shape::new(code, p, cell), length, Fill::Random, lost, Sent::PLAIN);
                    }
                }
            }
        }
    }

    /// Bad numbers in bytes that are no job: 13 comes before all others.
    fn bad_in_both(&mut self) {
        for (shape, length, odd) in [
            (Shape { code: 0, ..SMALL }, 8, Odd::Nothing),
            (Shape { p: 4, ..SMALL }, 8, Odd::Nothing),
            (Shape { cell: 0, ..SMALL }, 8, Odd::Nothing),
            (Shape::new(255, 255, 65_535), 8, Odd::Number(65_535)),
            (SMALL, 7, Odd::Nothing),
            (SMALL, 8, Odd::Number(8)),
        ] {
            let told = [Change::Told(5, 1), Change::Told(5, -1), Change::Told(4, 1), Change::Told(1, 1)];
            let each = (1..=5).flat_map(|tag| [Change::Without(tag), Change::Twice(tag)]);
            let more = [Change::Long(4, 3), Change::Long(5, 32_769), Change::More(1), Change::Cut(30)];
            for change in told.into_iter().chain(each).chain(more) {
                let lost = Lost { odd, ..self.job_lost(Base::Columns(0, 1), 0, 0) };
                self.push_job(shape, length, Fill::Random, lost, Sent { change, ..Sent::PLAIN });
            }
        }
    }

    /// Every room up to a little more than enough for the small job's answer, carried out
    /// and refused, and rooms about enough for others.
    fn rooms(&mut self) {
        for change in [Change::Nothing, Change::Without(4), Change::Long(5, 9), Change::More(1)] {
            for room in (0..=18).map(Room::Of).chain([Room::More(100), Room::Of(40_000)]) {
                self.good_job(SMALL, Sent { change, room, ..Sent::PLAIN });
            }
        }
        for (shape, cell_told) in BASES {
            let near = [Room::Less(1), Room::Less(2), Room::More(1), Room::More(2), Room::More(4096)];
            for room in near.into_iter().chain([0, 3, 4, 7].map(Room::Of)) {
                for fill in [Fill::Encoded, Fill::Random] {
                    let lost = self.job_lost(Base::Columns(0, 0), 0, 0);
                    self.job(shape, fill, lost, Sent { cell_told, change: Change::Nothing, room });
                }
            }
        }
    }

    /// Most of them mutated, and most of those short.
    pub fn random_job(&mut self) {
        let Shape { code, p, .. } = self.random_shape();
        let shelf = self.full(code, p);
        let (columns, largest) = (shelf.columns, (MOST / shelf.cells() as u64).min(4096));
        let short = self.random.below(4) > 0;
        let cell = 1 + self.random.below(if short { 3 } else { largest as usize }) as u64;
        let (cell, cell_told) = match self.random.below(16) {
            0 if USUAL_CELL <= largest => (USUAL_CELL, false),
            1 => (cell, false),
            _ => (cell, true),
        };
        let shape = Shape::new(code, p, cell);
        let change = match self.random.below(4) {
            0 => Change::Nothing,
            _ => Change::Mutated(1 + self.random.below(3)),
        };
        let more = self.random.below(40);
        let room = match self.random.below(8) {
            0 => Room::Of(more),
            1 => Room::Less(1),
            2 | 3 => Room::More(more),
            _ => Room::Enough,
        };
        let [a, b] = [0, 1].map(|_| self.random.below(columns));
        let [less, more] = [self.random.below(3), self.random.below(2)];
        let base =
            self.random.one_of(&[Base::Empty, Base::Columns(a, a), Base::Columns(a, b), Base::Determined]);
        let lost = self.job_lost(base, less, more);
        let fill = if self.random.below(2) == 0 { Fill::Encoded } else { self.random.one_of(&FILLS) };
        self.job(shape, fill, lost, Sent { cell_told, change, room });
    }
}
