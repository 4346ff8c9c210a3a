//! The clues of a picture made by the crate and by the port, in one process and on the same pictures: rows of microseconds a picture.
//! Usage: clues [ROUNDS]. Each number is the least of so many rounds over the row's pictures; both answers are compared first.
#![allow(warnings)]
use nonogrid::block::{
    base::{clues_from_solution, Block, Description},
    binary::BinaryBlock,
    multicolor::ColoredBlock,
};

mod common;
#[path = "../drawing.rs"]
mod drawing;
#[path = "../../examples/rust/scorepuddle.rs"]
mod scorepuddle;
use common::{made, measure, microseconds, palette, rounds, Measured, Round, Row, SEED};
use drawing::{paint_blobs, paint_noise, Random};
use scorepuddle::{sp_binary_clues, sp_clues, CluesAnswer};

const PICTURES: usize = 12;
const REPEATS: usize = 4;
const BLANK: u32 = 1;

/// Pictures as codes, row after row, and as the crate takes them.
struct Given {
    side: usize,
    codes: Vec<Vec<u32>>,
    rows: Vec<Vec<Vec<u32>>>,
}

impl Given {
    fn draw(side: usize, kind: &str, shape: &str) -> Given {
        let mut random = Random(SEED ^ ((side as u64) << 8));
        let mut paint = |_| match shape {
            "blobs" => paint_blobs(&mut random, side, side, palette(kind)),
            _ => paint_noise(&mut random, side * side, 6, palette(kind)),
        };
        let codes: Vec<Vec<u32>> = (0..PICTURES).map(&mut paint).collect();
        let rows = codes.iter().map(|picture| picture.chunks(side).map(<[u32]>::to_vec).collect()).collect();
        Given { side, codes, rows }
    }
}

/// The lists that the port is lent: counts, sizes and colours of the rows, and of the columns.
struct Port([Vec<u32>; 6]);

impl Port {
    fn new(side: usize) -> Port {
        let [counts, cells] = [side, side * side].map(|room| vec![0xdead_beef; room]);
        Port([counts.clone(), cells.clone(), cells.clone(), counts, cells.clone(), cells])
    }
    fn binary(&mut self, side: usize, codes: &[u32]) -> CluesAnswer {
        let [a, b, _, d, e, _] = &mut self.0;
        sp_binary_clues(side, side, codes, BLANK, a, b, d, e)
    }
    fn coloured(&mut self, side: usize, codes: &[u32]) -> CluesAnswer {
        let [a, b, c, d, e, f] = &mut self.0;
        sp_clues(side, side, codes, BLANK, a, b, c, d, e, f)
    }
}

/// How many blocks each line has, and the sizes of all blocks, line after line.
fn lists<B: Block>(clues: &[Description<B>]) -> [Vec<u32>; 2] {
    let sizes = clues.iter().flat_map(|clue| clue.vec.iter().map(|block| block.size() as u32));
    [clues.iter().map(|clue| clue.vec.len() as u32).collect(), sizes.collect()]
}

/// Compares counts and sizes, and makes the round.
fn round<B: Block + 'static>(given: Given, mut call: impl FnMut(&mut Port, &[u32]) -> CluesAnswer + 'static) -> Round {
    let mut port = Port::new(given.side);
    for (codes, rows) in given.codes.iter().zip(&given.rows) {
        let (columns, rows) = clues_from_solution::<B>(rows, BLANK);
        let told = call(&mut port, codes);
        let [row_counts, row_sizes, _, column_counts, column_sizes, _] = &port.0;
        assert_eq!(lists(&rows), [row_counts.clone(), row_sizes[..told.rows].to_vec()]);
        assert_eq!(lists(&columns), [column_counts.clone(), column_sizes[..told.columns].to_vec()]);
    }
    Box::new(move || {
        let theirs = || given.rows.iter().for_each(|rows| drop(made(clues_from_solution::<B>(rows, BLANK))));
        let theirs = microseconds(REPEATS, PICTURES, theirs);
        let ours = || given.codes.iter().for_each(|codes| drop(made(call(&mut port, codes))));
        [theirs, microseconds(REPEATS, PICTURES, ours)]
    })
}

fn row(side: usize, kind: &'static str, shape: &'static str) -> Row {
    let given = Given::draw(side, kind, shape);
    let measured = Measured { what: "clues", cells: format!("{side} × {side}"), kind, shape, known: "" };
    let round = match kind {
        "binary" => round::<BinaryBlock>(given, move |port, codes| port.binary(side, codes)),
        _ => round::<ColoredBlock>(given, move |port, codes| port.coloured(side, codes)),
    };
    Row::new(measured, round)
}

fn rows() -> Vec<Row> {
    let mut rows = vec![];
    for side in [5, 10, 20, 40, 64] {
        for kind in ["binary", "4 colours"] {
            for shape in ["blobs", "noise"] {
                rows.push(row(side, kind, shape));
            }
        }
    }
    rows
}

fn main() {
    measure(rows(), rounds(), "Clues", &format!("{PICTURES} pictures"));
}
