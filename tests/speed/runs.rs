//! Full runs by the crate, without and with its cache, and by the port, in one process and on the same inputs: rows of microseconds a run.
//! Usage: runs [ROUNDS]. Each number is the mean over the row's puzzles of the least of that many runs; the answers are compared first.
#![allow(warnings)]
use std::time::Instant;

use nonogrid::{
    block::{
        base::{Block, Description},
        binary::{BinaryBlock, BinaryColor},
        multicolor::{ColoredBlock, MultiColor},
    },
    board::{Board, Point},
    solver::{
        line::{DynamicColor, DynamicSolver, UnsolvableLine},
        propagation::Solver,
    },
    utils::rc::MutRc,
};

mod common;
#[path = "../drawing.rs"]
mod drawing;
#[path = "../../examples/rust/scorepuddle.rs"]
mod scorepuddle;
use common::{codes, made, palette, rounds, Measured, Table, COLOURS, OPEN, SEED};
use drawing::{clues, paint_blobs, paint_noise, Clues, Random};
use scorepuddle::{sp_run, sp_run_binary, RunAnswer, MEMO_BYTES, STACK_ENTRIES};

const PUZZLES: usize = 16;
const DIRTY: u32 = 0xdead_beef;

/// A square puzzle.
struct Puzzle {
    side: usize,
    rows: Clues,
    columns: Clues,
}

/// Discs, or noise in which 5 to 8 cells of 10 have a colour.
fn puzzle(random: &mut Random, shape: &str, side: usize, palette: &[u32]) -> Puzzle {
    let picture = if shape == "blobs" {
        paint_blobs(random, side, side, palette)
    } else {
        let tenths = 5 + random.below(4);
        paint_noise(random, side * side, tenths, palette)
    };
    let (rows, columns) = clues(&picture, side);
    Puzzle { side, rows, columns }
}

fn lent(clues: &Clues) -> scorepuddle::Clues<'_> {
    let Clues { counts, sizes, colours } = clues;
    scorepuddle::Clues { counts, sizes, colours }
}

/// The buffers that the port is lent. They are dirty before the first run, and after it as a run leaves them.
struct Port {
    grid: Vec<u32>,
    report: Vec<u32>,
    memo: Vec<u8>,
    stack: Vec<u32>,
}

impl Port {
    fn new(side: usize) -> Port {
        Port {
            grid: vec![DIRTY; side * side],
            report: vec![DIRTY; side * side * COLOURS.len()],
            memo: vec![0xa5; MEMO_BYTES],
            stack: vec![DIRTY; STACK_ENTRIES],
        }
    }
}

/// What differs between the two kinds of cell.
trait Kind: Block {
    /// An open cell, for the port and for the crate.
    const OPEN: u32;
    fn open() -> Self::Color;
    fn block(size: usize, colour: u32) -> Self;
    fn codes(cells: &[Self::Color]) -> Vec<u32>;
    fn port_runs(port: &mut Port, puzzle: &Puzzle) -> RunAnswer;
}

impl Kind for BinaryBlock {
    const OPEN: u32 = 0;
    fn open() -> BinaryColor {
        BinaryColor::Undefined
    }
    fn block(size: usize, _colour: u32) -> Self {
        BinaryBlock(size)
    }
    fn codes(cells: &[BinaryColor]) -> Vec<u32> {
        codes(cells)
    }
    fn port_runs(port: &mut Port, puzzle: &Puzzle) -> RunAnswer {
        let Port { grid, report, memo, stack } = port;
        let (rows, columns) = (lent(&puzzle.rows), lent(&puzzle.columns));
        sp_run_binary(puzzle.side, puzzle.side, grid, rows, columns, report, memo, stack)
    }
}

impl Kind for ColoredBlock {
    const OPEN: u32 = OPEN;
    fn open() -> MultiColor {
        MultiColor(OPEN)
    }
    fn block(size: usize, colour: u32) -> Self {
        ColoredBlock::from_size_and_color(size, colour)
    }
    fn codes(cells: &[MultiColor]) -> Vec<u32> {
        cells.iter().map(|c| c.0).collect()
    }
    fn port_runs(port: &mut Port, puzzle: &Puzzle) -> RunAnswer {
        let Port { grid, report, memo, stack } = port;
        let (rows, columns) = (lent(&puzzle.rows), lent(&puzzle.columns));
        sp_run(puzzle.side, puzzle.side, grid, rows, columns, report, memo, stack)
    }
}

fn descriptions<B: Kind>(clues: &Clues) -> Vec<Description<B>> {
    let pairs = clues.sizes.iter().zip(&clues.colours);
    let mut blocks = pairs.map(|(&size, &colour)| B::block(size as usize, colour));
    let mut take = |count: u32| blocks.by_ref().take(count as usize).collect();
    clues.counts.iter().map(|&n| Description { vec: take(n) }).collect()
}

/// A board of the crate, all of its cells open.
fn board<B: Kind>(puzzle: &Puzzle) -> MutRc<Board<B>> {
    let (rows, columns) = (descriptions(&puzzle.rows), descriptions(&puzzle.columns));
    let board = MutRc::new(Board::with_descriptions_and_palette(rows, columns, None));
    let open = vec![B::open(); puzzle.side];
    for y in 0..puzzle.side {
        Board::set_row_with_callback(&board, y, &open);
    }
    board
}

type Told = Result<Vec<Point>, UnsolvableLine>;

/// The crate's run on a fresh board with a fresh solver: its microseconds, what it tells and the board after it. The run alone is timed.
fn crate_runs<B: Kind>(puzzle: &Puzzle, cache: bool) -> (f64, Told, MutRc<Board<B>>)
where
    B::Color: DynamicColor,
{
    let board = board::<B>(puzzle);
    let mut solver = if cache { Solver::with_cache(board.clone()) } else { Solver::new(board.clone()) };
    let start = Instant::now();
    let told = made(solver.run::<DynamicSolver<B>>(None));
    (microseconds(start), told, board)
}

/// The port's run on an open grid: its microseconds and what it tells. The call alone is timed.
fn port_runs<B: Kind>(puzzle: &Puzzle, port: &mut Port) -> (f64, RunAnswer) {
    port.grid.fill(B::OPEN);
    let start = Instant::now();
    let told = made(B::port_runs(port, puzzle));
    (microseconds(start), told)
}

fn microseconds(start: Instant) -> f64 {
    start.elapsed().as_nanos() as f64 / 1000.0
}

/// The answers agree: the number, the board and, where the crate's unstable sort leaves the order of lines alone, the report.
fn compare<B: Kind>(puzzle: &Puzzle, port: &mut Port)
where
    B::Color: DynamicColor,
{
    port.report.fill(DIRTY);
    let ours = port_runs::<B>(puzzle, port).1;
    for cache in [false, true] {
        let (_, told, board) = crate_runs::<B>(puzzle, cache);
        let points = told.expect("a puzzle of a picture has a solution");
        assert_eq!(ours.number, 0);
        assert_eq!(B::codes(&board.read().make_snapshot()), port.grid);
        if puzzle.side <= 10 {
            let cells = points.iter().map(|p| (p.y * puzzle.side + p.x) as u32);
            assert_eq!(cells.collect::<Vec<u32>>(), port.report[..ours.entries]);
        }
    }
}

/// One row of the table: its puzzles, and the least microseconds of each so far (the crate without and with its cache, the port).
struct Row {
    side: usize,
    kind: &'static str,
    shape: &'static str,
    puzzles: Vec<Puzzle>,
    least: Vec<[f64; 3]>,
}

impl Row {
    fn new(side: usize, kind: &'static str, shape: &'static str) -> Row {
        let mut random = Random(SEED ^ ((side as u64) << 8));
        let mut next = || puzzle(&mut random, shape, side, palette(kind));
        Row { side, kind, shape, puzzles: (0..PUZZLES).map(|_| next()).collect(), least: vec![[f64::MAX; 3]; PUZZLES] }
    }
    fn compare<B: Kind>(&self)
    where
        B::Color: DynamicColor,
    {
        let mut port = Port::new(self.side);
        for puzzle in &self.puzzles {
            compare::<B>(puzzle, &mut port);
        }
    }
    /// Every puzzle once by each of the three, by turns.
    fn measure<B: Kind>(&mut self)
    where
        B::Color: DynamicColor,
    {
        let mut port = Port::new(self.side);
        for (puzzle, least) in self.puzzles.iter().zip(&mut self.least) {
            least[0] = least[0].min(crate_runs::<B>(puzzle, false).0);
            least[1] = least[1].min(crate_runs::<B>(puzzle, true).0);
            least[2] = least[2].min(port_runs::<B>(puzzle, &mut port).0);
        }
    }
    fn mean(&self, which: usize) -> f64 {
        self.least.iter().map(|l| l[which]).sum::<f64>() / PUZZLES as f64
    }
}

/// All rows. A round goes through the whole table, so that a busy time of the machine does not fall on one row.
fn measure_rows(rounds: usize) -> Vec<Row> {
    let mut rows = vec![];
    for side in [10, 20, 40, 64] {
        for kind in ["binary", "4 colours"] {
            for shape in ["blobs", "noise"] {
                rows.push(Row::new(side, kind, shape));
            }
        }
    }
    for row in &rows {
        if row.kind == "binary" {
            row.compare::<BinaryBlock>();
        } else {
            row.compare::<ColoredBlock>();
        }
    }
    for round in 0..rounds {
        if round % 10 == 0 {
            eprintln!("measuring runs: round {} of {rounds}", round + 1);
        }
        for row in &mut rows {
            if row.kind == "binary" {
                row.measure::<BinaryBlock>();
            } else {
                row.measure::<ColoredBlock>();
            }
        }
    }
    rows
}

fn main() {
    let rounds = rounds();
    let mut table = Table::default();
    for row in &measure_rows(rounds) {
        let Row { side, kind, shape, .. } = row;
        let [theirs, with_cache, ours] = [0, 1, 2].map(|which| row.mean(which));
        let measured = Measured { what: "run", cells: format!("{side} × {side}"), kind, shape, known: "open" };
        table.row(&measured, theirs, Some(with_cache), ours);
    }
    table.tell("Runs", &format!("{PUZZLES} puzzles a row, the least of {rounds} rounds"));
}
