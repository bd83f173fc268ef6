//! The stripes of the codes: their rows, columns and equations.

/// (row, column)
pub type Position = (usize, usize);

/// The parity cell is the XOR of the sources.
pub struct Equation {
    pub parity: Position,
    pub sources: Vec<Position>,
}

/// A stripe's rows, columns and equations, first family first.
pub struct Layout {
    pub rows: usize,
    pub columns: usize,
    pub equations: Vec<Equation>,
}

impl Layout {
    /// For a code and a p in the lists only.
    pub fn new(code: u64, p: u64) -> Layout {
        let p = p as usize;
        match code {
            1 => Layout { rows: p - 1, columns: p + 1, equations: rdp(p) },
            2 => Layout { rows: p - 1, columns: p + 1, equations: h_code(p) },
            3 => Layout { rows: p, columns: p, equations: x_code(p) },
            4 => Layout { rows: p - 1, columns: p + 2, equations: evenodd(p) },
            _ => unreachable!("code {code}"),
        }
    }

    pub fn cells(&self) -> usize {
        self.rows * self.columns
    }

    /// Sets every parity cell. A diagonal of RDP has row parity among its sources,
    /// and the row equations come first: the equations are solved in order.
    pub fn encode(&self, cell: usize, stripe: &mut [u8]) {
        for equation in &self.equations {
            let parity = self.xor(&equation.sources, cell, stripe);
            let start = self.start(equation.parity, cell);
            stripe[start..start + cell].copy_from_slice(&parity);
        }
    }

    pub fn broken(&self, cell: usize, stripe: &[u8]) -> u64 {
        let fails = |equation: &&Equation| {
            let start = self.start(equation.parity, cell);
            stripe[start..start + cell] != self.xor(&equation.sources, cell, stripe)
        };
        self.equations.iter().filter(fails).count() as u64
    }

    pub fn is_parity(&self, position: Position) -> bool {
        self.equations.iter().any(|equation| equation.parity == position)
    }

    pub fn number(&self, (row, column): Position) -> usize {
        column * self.rows + row
    }

    /// Where a cell's bytes start.
    pub fn start(&self, position: Position, cell: usize) -> usize {
        self.number(position) * cell
    }

    pub fn xor(&self, sources: &[Position], cell: usize, stripe: &[u8]) -> Vec<u8> {
        let mut sum = vec![0; cell];
        for &source in sources {
            let start = self.start(source, cell);
            for (byte, other) in sum.iter_mut().zip(&stripe[start..start + cell]) {
                *byte ^= other;
            }
        }
        sum
    }
}

/// The cells of columns 0 to p-1 and rows 0 to p-2 with i+j = d mod p.
fn on_diagonal(p: usize, d: usize) -> impl Iterator<Item = Position> {
    let all = (0..=p - 1).flat_map(move |j| (0..=p - 2).map(move |i| (i, j)));
    all.filter(move |(i, j)| (i + j) % p == d)
}

fn rdp(p: usize) -> Vec<Equation> {
    let row = |i| Equation { parity: (i, p - 1), sources: (0..=p - 2).map(|j| (i, j)).collect() };
    let diagonal = |d| Equation { parity: (d, p), sources: on_diagonal(p, d).collect() };
    (0..=p - 2).map(row).chain((0..=p - 2).map(diagonal)).collect()
}

fn h_code(p: usize) -> Vec<Equation> {
    let columns_except = |out: usize| (0..=p - 1).filter(move |&j| j != out);
    let row = |i| Equation { parity: (i, p), sources: columns_except(i + 1).map(|j| (i, j)).collect() };
    let anti_diagonal = |r| Equation {
        parity: (r, r + 1),
        sources: columns_except(r + 1).map(|j| ((p - 2 - r + j) % p, j)).collect(),
    };
    (0..=p - 2).map(row).chain((0..=p - 2).map(anti_diagonal)).collect()
}

fn x_code(p: usize) -> Vec<Equation> {
    let first =
        |c| Equation { parity: (p - 2, c), sources: (0..=p - 3).map(|k| (k, (c + k + 2) % p)).collect() };
    let second =
        |c| Equation { parity: (p - 1, c), sources: (0..=p - 3).map(|k| (k, (p + c - k - 2) % p)).collect() };
    (0..p).map(first).chain((0..p).map(second)).collect()
}

fn evenodd(p: usize) -> Vec<Equation> {
    let row = |i| Equation { parity: (i, p), sources: (0..=p - 1).map(|j| (i, j)).collect() };
    let s = || (1..=p - 1).map(|j| (p - 1 - j, j));
    let diagonal = |d| Equation { parity: (d, p + 1), sources: s().chain(on_diagonal(p, d)).collect() };
    (0..=p - 2).map(row).chain((0..=p - 2).map(diagonal)).collect()
}
