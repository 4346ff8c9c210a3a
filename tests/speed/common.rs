//! What the measurements share: the seed, the colours, binary cells as numbers, the rows of the table and its means.
use nonogrid::block::binary::BinaryColor;
use std::{arch::asm, time::Instant};

pub const SEED: u64 = 7303;
pub const COLOURS: [u32; 4] = [2, 4, 8, 16];
/// A cell that can have each of the colours or be blank.
pub const OPEN: u32 = 31;

/// The colours of a kind of row.
pub fn palette(kind: &str) -> &'static [u32] {
    if kind == "binary" {
        &[2]
    } else {
        &COLOURS
    }
}

/// The document's numbers of binary cells.
pub fn codes(cells: &[BinaryColor]) -> Vec<u32> {
    cells
        .iter()
        .map(|c| match c {
            BinaryColor::Undefined => 0,
            BinaryColor::White => 1,
            BinaryColor::Black => 2,
            BinaryColor::BlackOrWhite => 3,
        })
        .collect()
}

/// The number of rounds, the program's one argument.
pub fn rounds() -> usize {
    std::env::args().nth(1).map_or(150, |w| w.parse().expect("a number of rounds"))
}

/// A value that the compiler must make, whether it is used or not: `std::hint::black_box`, which older compilers lack.
pub fn made<T>(value: T) -> T {
    unsafe { asm!("/* {0} */", in(reg) &value, options(nostack, preserves_flags)) };
    value
}

/// What a row measures: a line or a run, its cells, their kind, the blocks or the picture, and what is known at the start.
pub struct Measured<'a> {
    pub what: &'a str,
    pub cells: String,
    pub kind: &'a str,
    pub shape: &'a str,
    pub known: &'a str,
}

/// The factors of the rows: the crate's time over the port's, without and with its cache. A line has no cache.
#[derive(Default)]
pub struct Table {
    plain: Vec<f64>,
    cached: Vec<f64>,
}

fn geometric_mean(factors: &[f64]) -> f64 {
    (factors.iter().map(|f| f.ln()).sum::<f64>() / factors.len() as f64).exp()
}

fn least(factors: &[f64]) -> f64 {
    factors.iter().copied().fold(f64::MAX, f64::min)
}

impl Table {
    /// Prints a row, times in microseconds.
    pub fn row(&mut self, measured: &Measured, theirs: f64, with_cache: Option<f64>, ours: f64) {
        let Measured { what, cells, kind, shape, known } = measured;
        self.plain.push(theirs / ours);
        self.cached.extend(with_cache.map(|time| time / ours));
        let factor = theirs / ours;
        let cached = with_cache.map_or(String::new(), |time| format!("{time:.3}"));
        let other = with_cache.map_or(String::new(), |time| format!("{:.2}", time / ours));
        print!("| {what} | {cells} | {kind} | {shape} | {known} ");
        println!("| {theirs:.3} | {cached} | {ours:.3} | {factor:.2} | {other} |");
    }
    /// Tells the means, in the line after the rows.
    pub fn tell(&self, what: &str, how: &str) {
        let (rows, mean, low) = (self.plain.len(), geometric_mean(&self.plain), least(&self.plain));
        print!("{what}: {rows} rows, crate / port {mean:.2} in the geometric mean, {low:.2} at least");
        if !self.cached.is_empty() {
            print!("; with its cache {:.2} and {:.2}", geometric_mean(&self.cached), least(&self.cached));
        }
        println!(". Seed {SEED}, {how}.");
    }
}

/// One round of a row: the crate's time and the port's, on the same inputs.
pub type Round = Box<dyn FnMut() -> [f64; 2]>;

/// One row of the table, and the least times so far.
pub struct Row {
    measured: Measured<'static>,
    round: Round,
    least: [f64; 2],
}

impl Row {
    pub fn new(measured: Measured<'static>, round: Round) -> Row {
        Row { measured, round, least: [f64::MAX; 2] }
    }
    fn measure(&mut self) {
        let times = (self.round)();
        self.least = [0, 1].map(|which| self.least[which].min(times[which]));
    }
}

/// The time of the work, which is done several times over so many inputs, in microseconds an input.
pub fn microseconds(repeats: usize, inputs: usize, mut work: impl FnMut()) -> f64 {
    let start = Instant::now();
    for _ in 0..repeats {
        work();
    }
    start.elapsed().as_nanos() as f64 / (1000 * repeats * inputs) as f64
}

/// Measures the rows and prints them. A round goes through the whole table, so that a busy time of the machine does not fall on one row.
pub fn measure(mut rows: Vec<Row>, rounds: usize, what: &str, inputs: &str) {
    for round in 0..rounds {
        if round % 250 == 0 {
            eprintln!("measuring {}: round {} of {rounds}", what.to_lowercase(), round + 1);
        }
        rows.iter_mut().for_each(Row::measure);
    }
    let mut table = Table::default();
    for Row { measured, least: [theirs, ours], .. } in &rows {
        table.row(measured, *theirs, None, *ours);
    }
    table.tell(what, &format!("{inputs} a row, the least of {rounds} rounds"));
}
