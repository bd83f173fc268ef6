//! Which cells are lost, how the list names them, and what is found in them.

use crate::random::Random;
use crate::second::call::Call;
use crate::second::layout::Equation;
use crate::second::shelf::Shelf;

/// The lost cells: those of a base, less some of them, and some others more.
#[derive(Clone, Copy, PartialEq, Debug)]
pub struct Lost {
    pub base: Base,
    pub less: usize,
    pub more: usize,
    pub form: Form,
    pub found: Found,
    pub odd: Odd,
}

/// `Told` is the columns that the call is told. `Determined` is a largest set that is
/// determined, taken at random. `Unread` is all that a plan for a lost column doesn't read,
/// that column among it.
#[derive(Clone, Copy, PartialEq, Debug)]
pub enum Base {
    Empty,
    Cell(usize),
    Columns(usize, usize),
    Equation(usize),
    Told,
    Determined,
    Unread(usize, u64),
}

/// The order of the list. `Doubled` names some cells twice; `Long` and `Huge` name them
/// again and again, until there are more numbers than the stripe has cells; `Filled`
/// does so until there are that many.
#[derive(Clone, Copy, PartialEq, Debug)]
pub enum Form {
    Rising,
    Falling,
    Shuffled,
    Doubled,
    Long,
    Huge,
    Filled(usize),
}

pub const FORMS: [Form; 5] = [Form::Rising, Form::Falling, Form::Shuffled, Form::Doubled, Form::Long];

/// The bytes found in lost cells: random, zero, or those that were lost.
#[derive(Clone, Copy, PartialEq, Debug)]
pub enum Found {
    Random,
    Zero,
    Left,
}

/// What is odd about the list: one number more, mostly outside the stripe; or that the
/// call is told of 2^64 - 1 cells that aren't there, for calls refused for a lower number.
#[derive(Clone, Copy, PartialEq, Debug)]
pub enum Odd {
    Nothing,
    Number(u64),
    Absent,
}

impl Lost {
    pub const NONE: Lost = Lost {
        base: Base::Empty,
        less: 0,
        more: 0,
        form: Form::Rising,
        found: Found::Left,
        odd: Odd::Nothing,
    };

    /// The lost cells, each once.
    pub fn cells(&self, call: &Call, shelf: &Shelf, random: &mut Random) -> Vec<usize> {
        let mut cells = match self.base {
            Base::Told => return shelf.in_columns(call.columns[0] as usize, call.columns[1] as usize),
            Base::Empty => Vec::new(),
            Base::Cell(n) => vec![n],
            Base::Columns(a, b) => shelf.in_columns(a, b),
            Base::Equation(k) => held(shelf, k),
            Base::Determined => determined(shelf, random),
            Base::Unread(k, plan) => unread(shelf, k, plan),
        };
        let base = cells.clone();
        random.shuffle(&mut cells);
        cells.truncate(cells.len().saturating_sub(self.less));
        if self.more > 0 {
            let mut others: Vec<usize> = (0..shelf.cells()).filter(|n| !base.contains(n)).collect();
            random.shuffle(&mut others);
            cells.extend(others.into_iter().take(self.more));
        }
        cells
    }

    /// Whether the cells are determined, where it is known without computing: cells of
    /// at most two columns are; more cells than there are equations are not, and two
    /// columns and the largest determined sets have as many.
    pub fn determined(&self, shelf: &Shelf) -> Option<bool> {
        let surely = match self.base {
            Base::Empty => self.more <= 2,
            Base::Cell(_) => self.more <= 1,
            Base::Columns(a, b) => self.more <= (a == b) as usize,
            Base::Determined => self.more == 0,
            Base::Equation(_) | Base::Told | Base::Unread(..) => false,
        };
        let largest = match self.base {
            Base::Columns(a, b) => a != b,
            base => base == Base::Determined,
        };
        let too_many = largest && self.more > self.less || self.more > shelf.equations();
        if surely {
            Some(true)
        } else if too_many {
            Some(false)
        } else {
            None
        }
    }

    /// The list that names those cells.
    pub fn list(&self, cells: &[usize], shelf: &Shelf, random: &mut Random) -> Vec<u64> {
        let mut list: Vec<u64> = cells.iter().map(|&n| n as u64).collect();
        let again = match self.form {
            _ if cells.is_empty() => 0,
            Form::Doubled => 1 + random.below(cells.len()),
            Form::Long => shelf.cells() + 1 + random.below(shelf.cells()),
            Form::Huge => 100_000,
            Form::Filled(numbers) => numbers.saturating_sub(cells.len()),
            _ => 0,
        };
        list.extend((0..again).map(|_| cells[random.below(cells.len())] as u64));
        match self.form {
            Form::Rising => list.sort_unstable(),
            Form::Falling => list.sort_unstable_by(|a, b| b.cmp(a)),
            _ => random.shuffle(&mut list),
        }
        if let Odd::Number(n) = self.odd {
            let (any, last) = (random.below(list.len() + 1), list.len());
            list.insert(random.one_of(&[0, any, last]), n);
        }
        list
    }

    /// How many cells the call is told of.
    pub fn count(&self, list: &[u64]) -> u64 {
        if self.odd == Odd::Absent {
            u64::MAX
        } else {
            list.len() as u64
        }
    }

    /// Puts into the lost cells what is found there.
    pub fn put_found(&self, cells: &[usize], cell: usize, stripe: &mut [u8], random: &mut Random) {
        for &n in cells {
            let bytes = &mut stripe[n * cell..(n + 1) * cell];
            match self.found {
                Found::Random => random.fill(bytes),
                Found::Zero => bytes.fill(0),
                Found::Left => {}
            }
        }
    }
}

/// The cells that an equation holds.
fn held(shelf: &Shelf, k: usize) -> Vec<usize> {
    let Equation { parity, sources } = &shelf.whole.equations[k];
    let holds = |n: &usize| sources.iter().chain([parity]).any(|held| *held == shelf.position(*n));
    (0..shelf.cells()).filter(holds).collect()
}

fn unread(shelf: &Shelf, k: usize, plan: u64) -> Vec<usize> {
    let read = shelf.reads(k, plan).expect("an accepted plan");
    (0..shelf.cells()).filter(|n| !read.contains(n)).collect()
}

/// Goes through the cells in random order and keeps each one whose equations are not
/// the sum of those of some cells kept before.
fn determined(shelf: &Shelf, random: &mut Random) -> Vec<usize> {
    let mut holding = vec![0u64; shelf.whole.cells()];
    for (k, equation) in shelf.whole.equations.iter().enumerate() {
        for &position in equation.sources.iter().chain([&equation.parity]) {
            holding[shelf.whole.number(position)] |= 1 << k;
        }
    }
    let equations = |n| holding[shelf.whole.number(shelf.position(n))];
    let mut order: Vec<usize> = (0..shelf.cells()).collect();
    random.shuffle(&mut order);
    // Each of the sums has a highest bit that no later one has.
    let mut sums: Vec<u64> = Vec::new();
    order.retain(|&n| {
        let rest = sums.iter().fold(equations(n), |rest, sum| rest.min(rest ^ sum));
        if rest != 0 {
            sums.push(rest);
        }
        rest != 0
    });
    order
}
