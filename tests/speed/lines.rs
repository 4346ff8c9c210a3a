//! One line solved by the crate and by the port, in one process and on the same inputs: rows of microseconds a line.
//! Usage: lines [ROUNDS]. Each number is the least of ten times that many rounds over the row's lines; both answers are compared first.
#![allow(warnings)]
use nonogrid::{
    block::{
        base::{Block, Description},
        binary::{BinaryBlock, BinaryColor},
        multicolor::{ColoredBlock, MultiColor},
    },
    solver::line::{self, DynamicColor, DynamicSolver},
    utils::rc::ReadRc,
};

mod common;
#[path = "../drawing.rs"]
mod drawing;
#[path = "../../examples/rust/scorepuddle.rs"]
mod scorepuddle;
use common::{codes, made, measure, microseconds, palette, rounds, Measured, Round, Row, OPEN, SEED};
use drawing::{place, space, Random};
use scorepuddle::{sp_solve_binary_line, sp_solve_line, MEMO_BYTES};

const LINES: usize = 24;
const REPEATS: usize = 8;
/// Rounds for each that is asked for: those of lines are short.
const ROUNDS: usize = 10;

/// A line as colour sets, with its blocks. A binary line has the colour 2 alone.
struct Case {
    cells: Vec<u32>,
    sizes: Vec<u32>,
    colours: Vec<u32>,
}

/// Blocks of the shape: sparse fills about a quarter of the line with short ones, dense nearly all of it, long has a few long ones.
fn blocks(random: &mut Random, shape: &str, length: usize, palette: &[u32]) -> (Vec<u32>, Vec<u32>) {
    let (limit, least, most) = match shape {
        "sparse" => (length / 3, 1, 3),
        "dense" => (length - length / 8, 1, 4),
        "long" => (length - length / 5, length / 5, length / 3),
        _ => (length, 1, 1),
    };
    let (mut sizes, mut colours): (Vec<u32>, Vec<u32>) = (vec![], vec![]);
    while shape != "ones" || sizes.len() < length / 4 {
        let colour = random.colour(palette);
        let size = least.max(1) + random.below(most.max(1) - least.max(1) + 1);
        sizes.push(size as u32);
        colours.push(colour);
        if space(&sizes, &colours) > limit {
            sizes.pop();
            colours.pop();
            break;
        }
    }
    if sizes.is_empty() {
        sizes.push(least.max(1) as u32);
        colours.push(2);
    }
    (sizes, colours)
}

fn case(random: &mut Random, shape: &str, known: &str, length: usize, kind: &str) -> Case {
    let (sizes, colours) = blocks(random, shape, length, palette(kind));
    let open = if kind == "binary" { 3 } else { OPEN };
    let mut cells = place(random, length, &sizes, &colours);
    for cell in cells.iter_mut() {
        if known == "open" || random.below(2) == 0 {
            *cell = open;
        }
    }
    Case { cells, sizes, colours }
}

/// The crate's line and clue, made outside the measured time.
type Given<B> = (ReadRc<Description<B>>, ReadRc<[<B as Block>::Color]>);

fn coloured(case: &Case) -> Given<ColoredBlock> {
    let blocks = case
        .sizes
        .iter()
        .zip(&case.colours)
        .map(|(&size, &color)| ColoredBlock::from_size_and_color(size as usize, color))
        .collect();
    let cells: Vec<MultiColor> = case.cells.iter().map(|&c| MultiColor(c)).collect();
    (ReadRc::new(Description::new(blocks)), cells.into())
}

fn binary(case: &Case) -> Given<BinaryBlock> {
    let blocks = case.sizes.iter().map(|&size| BinaryBlock(size as usize)).collect();
    let cells: Vec<BinaryColor> = case
        .cells
        .iter()
        .map(|&c| match c {
            1 => BinaryColor::White,
            2 => BinaryColor::Black,
            _ => BinaryColor::Undefined,
        })
        .collect();
    (ReadRc::new(Description::new(blocks)), cells.into())
}

/// What one call of the crate answers.
fn crate_solves<B: Block>(given: &Given<B>) -> Option<ReadRc<[B::Color]>>
where
    B::Color: DynamicColor,
{
    line::solve::<DynamicSolver<B>, B>(given.0.clone(), given.1.clone()).ok()
}

struct Port {
    memo: Vec<u8>,
    out: Vec<u32>,
}

impl Port {
    fn coloured(&mut self, case: &Case) -> u32 {
        sp_solve_line(&case.cells, &case.sizes, &case.colours, &mut self.memo, &mut self.out)
    }
    fn binary(&mut self, cells: &[u32], case: &Case) -> u32 {
        sp_solve_binary_line(cells, &case.sizes, &mut self.memo, &mut self.out)
    }
}

/// Compares the answers on binary lines, and makes their round.
fn binary_round(cases: Vec<Case>, mut port: Port) -> Round {
    let given: Vec<_> = cases.iter().map(binary).collect();
    let cells: Vec<Vec<u32>> = given.iter().map(|g| codes(&g.1)).collect();
    for i in 0..LINES {
        let told = crate_solves(&given[i]);
        let number = port.binary(&cells[i], &cases[i]);
        assert_eq!(number == 0, told.is_some());
        told.map(|t| assert_eq!(codes(&t), port.out));
    }
    Box::new(move || {
        let theirs = microseconds(REPEATS, LINES, || given.iter().for_each(|g| drop(made(crate_solves(g)))));
        let ours =
            microseconds(REPEATS, LINES, || (0..LINES).for_each(|i| drop(made(port.binary(&cells[i], &cases[i])))));
        [theirs, ours]
    })
}

/// Compares the answers on coloured lines, and makes their round.
fn coloured_round(cases: Vec<Case>, mut port: Port) -> Round {
    let given: Vec<_> = cases.iter().map(coloured).collect();
    for i in 0..LINES {
        let told = crate_solves(&given[i]);
        let number = port.coloured(&cases[i]);
        assert_eq!(number == 0, told.is_some());
        told.map(|t| assert_eq!(t.iter().map(|c| c.0).collect::<Vec<u32>>(), port.out));
    }
    Box::new(move || {
        let theirs = microseconds(REPEATS, LINES, || given.iter().for_each(|g| drop(made(crate_solves(g)))));
        let ours = microseconds(REPEATS, LINES, || cases.iter().for_each(|c| drop(made(port.coloured(c)))));
        [theirs, ours]
    })
}

fn row(length: usize, kind: &'static str, shape: &'static str, known: &'static str) -> Row {
    let mut random = Random(SEED ^ ((length as u64) << 8));
    let cases = (0..LINES).map(|_| case(&mut random, shape, known, length, kind)).collect();
    let port = Port { memo: vec![0xa5; MEMO_BYTES], out: vec![0xdead_beef; length] };
    let measured = Measured { what: "line", cells: length.to_string(), kind, shape, known };
    Row::new(measured, if kind == "binary" { binary_round(cases, port) } else { coloured_round(cases, port) })
}

fn rows() -> Vec<Row> {
    let mut rows = vec![];
    for length in [8, 16, 32, 64] {
        for kind in ["binary", "4 colours"] {
            for shape in ["sparse", "dense", "long", "ones"] {
                for known in ["half-known", "open"] {
                    if shape != "ones" || known == "open" {
                        rows.push(row(length, kind, shape, known));
                    }
                }
            }
        }
    }
    rows
}

fn main() {
    measure(rows(), ROUNDS * rounds(), "Lines", &format!("{LINES} lines"));
}
