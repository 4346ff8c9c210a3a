//! The crate's answers to requests. The module above this one says which copy of the crate it is (`theirs`), and has the `trace`.
//!
//! A request is a command and decimal numbers, separated by blanks. An answer begins with 0 (done) or 8 (unsolvable), or is
//! `PANIC MESSAGE` where the crate panics (or a request is cut short). Nothing is checked: document 01's other refusals are not the
//! crate's.
//!
//! The last letter of a command is the kind of block: `b` binary, `c` coloured. BLOCKS stands for: how many, their sizes and, if
//! coloured, as many colours. They reach the crate as they are (nothing is dropped), but in `d`. CELLS stands for that many cells:
//! binary 0 Undefined, 1 White, 2 Black, 3 BlackOrWhite; coloured a set of colours as a number.
//!
//! | request | crate | answer |
//! |---|---|---|
//! | `sb` `sc` BLOCKS | `Block::partial_sums` | `0`, a sum for each block |
//! | `bb` `bc` BLOCKS | `Description::block_starts` | `0`, a start for each block |
//! | `pb` `pc` LENGTH BLOCKS | `positions_number` | `0`, the number |
//! | `vc` LENGTH BLOCKS | `color_ranges` | `0`, how many colours, then for each, by first appearance: colour, first cell, cell after the last |
//! | `db` `dc` BLOCKS | `Description::new` | `0` BLOCKS, those that it keeps |
//! | `cb` `cc` BLANK LENGTH CODES | `Description::from_line`, through a picture of one row | `0` BLOCKS |
//! | `gb` `gc` BLANK WIDTH HEIGHT CODES | `clues_from_solution`; the codes row after row | `0`, a count for each row, BLOCKS of all rows, a count for each column, BLOCKS of all columns |
//! | `lb` `lc` LENGTH CELLS BLOCKS | `line::solve` with `DynamicSolver` | `0` CELLS, or `8` |
//! | `rb` `rc` MODE [X Y] WIDTH HEIGHT CELLS ROWS COLUMNS | `propagation::Solver::run` | below |
//!
//! ROWS and COLUMNS are each: a count for each line, then the sizes of all its blocks and, if coloured, all their colours (how many
//! blocks there are is the sum of the counts and is not written). MODE is `f` for a full run or `p` for a point run, which has the
//! point X Y next; then `o` if the order of lines is wanted; then `k` for the crate's cache. So `f`, `po`, `fk`, `pok` and so on.
//!
//! A run's answer: `0 - 0` and the number of lines solved, or `8`, `r` or `c` with the index of the line that refused, and the number
//! of lines solved before it; then how many changed cells were reported and their numbers (y * width + x, in solving order; with 8
//! those of the lines before, which the crate logs and does not return); then the board's CELLS; and with `o` how many lines
//! were taken up and each as `r3` or `c3`, the refusing one included.
#![allow(warnings)]
use std::panic;

use super::theirs::{
    block::{
        base::{clues_from_solution, Block, Color, Description},
        binary::{BinaryBlock, BinaryColor},
        multicolor::{ColoredBlock, MultiColor},
    },
    board::{Board, Point},
    solver::{
        line::{self, DynamicColor, DynamicSolver},
        propagation::Solver,
    },
    utils::rc::{MutRc, ReadRc},
};

use super::trace::{self, Line, Trace};

/// The words of a request that are not read yet.
struct Words<'a>(std::str::SplitAsciiWhitespace<'a>);

impl<'a> Words<'a> {
    fn word(&mut self) -> &'a str {
        self.0.next().expect("a word")
    }
    fn number(&mut self) -> usize {
        self.word().parse().expect("a number")
    }
    fn code(&mut self) -> u32 {
        self.word().parse().expect("a number of 32 bits")
    }
    fn numbers(&mut self, count: usize) -> Vec<usize> {
        (0..count).map(|_| self.number()).collect()
    }
    fn codes(&mut self, count: usize) -> Vec<u32> {
        (0..count).map(|_| self.code()).collect()
    }
}

/// How a kind of block and its cells are written as numbers.
trait Kind: Block {
    const COLORED: bool;
    fn block(size: usize, color: u32) -> Self;
    fn color_code(self) -> u32;
    fn cell_code(cell: Self::Color) -> u32;
    fn cell(code: u32) -> Self::Color;
}

impl Kind for BinaryBlock {
    const COLORED: bool = false;
    fn block(size: usize, _color: u32) -> Self {
        BinaryBlock(size)
    }
    fn color_code(self) -> u32 {
        2
    }
    fn cell_code(cell: BinaryColor) -> u32 {
        match cell {
            BinaryColor::Undefined => 0,
            BinaryColor::White => 1,
            BinaryColor::Black => 2,
            BinaryColor::BlackOrWhite => 3,
        }
    }
    fn cell(code: u32) -> BinaryColor {
        match code {
            0 => BinaryColor::Undefined,
            1 => BinaryColor::White,
            2 => BinaryColor::Black,
            3 => BinaryColor::BlackOrWhite,
            _ => panic!("bad binary cell"),
        }
    }
}

impl Kind for ColoredBlock {
    const COLORED: bool = true;
    fn block(size: usize, color: u32) -> Self {
        ColoredBlock::from_size_and_color(size, color)
    }
    fn color_code(self) -> u32 {
        self.color().0
    }
    fn cell_code(cell: MultiColor) -> u32 {
        cell.0
    }
    fn cell(code: u32) -> MultiColor {
        MultiColor(code)
    }
}

fn read_counted<B: Kind>(words: &mut Words, count: usize) -> Vec<B> {
    let sizes = words.numbers(count);
    let colors = if B::COLORED { words.codes(count) } else { vec![2; count] };
    let pairs = sizes.into_iter().zip(colors);
    pairs.map(|(size, color)| B::block(size, color)).collect()
}

fn read_blocks<B: Kind>(words: &mut Words) -> Vec<B> {
    let count = words.number();
    read_counted(words, count)
}

/// A clue of exactly these blocks: `Description::new` would drop some.
fn read_clue<B: Kind>(words: &mut Words) -> Description<B> {
    let vec = read_blocks(words);
    Description { vec }
}

fn read_cells<B: Kind>(words: &mut Words, count: usize) -> Vec<B::Color> {
    words.codes(count).into_iter().map(B::cell).collect()
}

/// The clues of one direction: a count for each line, then all blocks.
fn read_clues<B: Kind>(words: &mut Words, lines: usize) -> Vec<Description<B>> {
    let counts = words.numbers(lines);
    let mut blocks = read_counted(words, counts.iter().sum()).into_iter();
    let mut take = |count: usize| blocks.by_ref().take(count).collect();
    let clues = counts.iter().map(|&count| take(count));
    clues.map(|vec| Description { vec }).collect()
}

/// Each value with a blank before it.
fn join<T: ToString>(values: impl IntoIterator<Item = T>) -> String {
    let mut text = String::new();
    for value in values {
        text.push(' ');
        text.push_str(&value.to_string());
    }
    text
}

fn show_blocks<B: Kind>(blocks: &[B]) -> String {
    let mut text = format!(" {}", blocks.len());
    text += &join(blocks.iter().map(|b| b.size()));
    if B::COLORED {
        text += &join(blocks.iter().map(|b| b.color_code()));
    }
    text
}

fn show_clues<B: Kind>(clues: &[Description<B>]) -> String {
    let blocks: Vec<B> = clues.iter().flat_map(|d| d.vec.iter().copied()).collect();
    join(clues.iter().map(|d| d.vec.len())) + &show_blocks(&blocks)
}

fn partial_sums<B: Kind>(words: &mut Words) -> String {
    let blocks = read_blocks::<B>(words);
    format!("0{}", join(B::partial_sums(&blocks)))
}

fn block_starts<B: Kind>(words: &mut Words) -> String {
    format!("0{}", join(read_clue::<B>(words).block_starts()))
}

fn positions_number<B: Kind>(words: &mut Words) -> String {
    let length = words.number();
    format!("0 {}", read_clue::<B>(words).positions_number(length))
}

/// The crate answers with a map; here its entries stand by first appearance in the clue.
fn color_ranges(words: &mut Words) -> String {
    let length = words.number();
    let clue = read_clue::<ColoredBlock>(words);
    let ranges = clue.color_ranges(length);
    let mut colors = vec![];
    for block in &clue.vec {
        if !colors.contains(&block.color_code()) {
            colors.push(block.color_code());
        }
    }
    assert_eq!(colors.len(), ranges.len());
    let mut text = format!("0 {}", colors.len());
    for color in colors {
        text += &format!(" {} {} {}", color, ranges[&color].start, ranges[&color].end);
    }
    text
}

fn description_new<B: Kind>(words: &mut Words) -> String {
    let blocks = read_blocks::<B>(words);
    format!("0{}", show_blocks(&Description::new(blocks).vec))
}

fn from_line<B: Kind>(words: &mut Words) -> String {
    let blank = words.code();
    let length = words.number();
    let codes = words.codes(length);
    let (_, rows) = clues_from_solution::<B>(&[codes], blank);
    format!("0{}", rows.first().map_or(" 0".into(), |d| show_blocks(&d.vec)))
}

fn grid_clues<B: Kind>(words: &mut Words) -> String {
    let blank = words.code();
    let (width, height) = (words.number(), words.number());
    let picture: Vec<Vec<u32>> = (0..height).map(|_| words.codes(width)).collect();
    let (columns, rows) = clues_from_solution::<B>(&picture, blank);
    format!("0{}{}", show_clues(&rows), show_clues(&columns))
}

fn solve_line<B: Kind>(words: &mut Words) -> String
where
    B::Color: DynamicColor,
{
    let length = words.number();
    let cells = read_cells::<B>(words, length);
    let clue = ReadRc::new(read_clue::<B>(words));
    match line::solve::<DynamicSolver<B>, B>(clue, cells.into()) {
        Ok(solved) => format!("0{}", join(solved.iter().map(|&c| B::cell_code(c)))),
        Err(_) => "8".into(),
    }
}

/// Reads a board and its clues. The start goes in by `set_row_with_callback`, which checks nothing and has no callback here.
fn read_board<B: Kind>(words: &mut Words, width: usize, height: usize) -> MutRc<Board<B>> {
    let cells = read_cells::<B>(words, width * height);
    let rows = read_clues(words, height);
    let columns = read_clues(words, width);
    let board = MutRc::new(Board::with_descriptions_and_palette(rows, columns, None));
    for y in 0..height {
        Board::set_row_with_callback(&board, y, &cells[y * width..(y + 1) * width]);
    }
    board
}

/// The numbers of the cells that the trace reports as changed.
fn changed_cells(trace: &Trace, width: usize) -> Vec<usize> {
    let number = |&(direction, index): &Line, at: usize| {
        if direction == 'r' {
            index * width + at
        } else {
            at * width + index
        }
    };
    let lines = trace.changed.iter();
    lines.flat_map(|(line, list)| list.iter().map(move |&at| number(line, at))).collect()
}

fn run<B: Kind>(words: &mut Words) -> String
where
    B::Color: DynamicColor,
{
    let mode = words.word();
    let point = if mode.starts_with('p') { Some(Point::new(words.number(), words.number())) } else { None };
    let (width, height) = (words.number(), words.number());
    let board = read_board::<B>(words, width, height);
    trace::start();
    let result = {
        let mut solver =
            if mode.ends_with('k') { Solver::with_cache(board.clone()) } else { Solver::new(board.clone()) };
        solver.run::<DynamicSolver<B>>(point)
    };
    let trace = trace::take();
    let report = changed_cells(&trace, width);
    let mut text = match &result {
        Ok(points) => {
            let own: Vec<usize> = points.iter().map(|p| p.y * width + p.x).collect();
            assert_eq!(own, report, "the returned report differs from the logged one");
            assert_eq!(trace.lines_solved, Some(trace.popped.len() as u64));
            format!("0 - 0 {}", trace.popped.len())
        }
        Err(_) => {
            assert_eq!(trace.lines_solved, None);
            let (direction, index) = *trace.popped.last().unwrap();
            format!("8 {} {} {}", direction, index, trace.popped.len() - 1)
        }
    };
    text += &format!(" {}{}", report.len(), join(report));
    let cells = board.read().make_snapshot();
    text += &join(cells.into_iter().map(B::cell_code));
    if mode.contains('o') {
        text += &format!(" {}", trace.popped.len());
        text += &join(trace.popped.iter().map(|(d, i)| format!("{}{}", d, i)));
    }
    text
}

fn take_up(request: &str) -> String {
    let words = &mut Words(request.split_ascii_whitespace());
    match words.word() {
        "sb" => partial_sums::<BinaryBlock>(words),
        "sc" => partial_sums::<ColoredBlock>(words),
        "bb" => block_starts::<BinaryBlock>(words),
        "bc" => block_starts::<ColoredBlock>(words),
        "pb" => positions_number::<BinaryBlock>(words),
        "pc" => positions_number::<ColoredBlock>(words),
        "vc" => color_ranges(words),
        "db" => description_new::<BinaryBlock>(words),
        "dc" => description_new::<ColoredBlock>(words),
        "cb" => from_line::<BinaryBlock>(words),
        "cc" => from_line::<ColoredBlock>(words),
        "gb" => grid_clues::<BinaryBlock>(words),
        "gc" => grid_clues::<ColoredBlock>(words),
        "lb" => solve_line::<BinaryBlock>(words),
        "lc" => solve_line::<ColoredBlock>(words),
        "rb" => run::<BinaryBlock>(words),
        "rc" => run::<ColoredBlock>(words),
        _ => panic!("unknown command"),
    }
}

/// What a panic said, on one line.
fn panic_text(cause: &(dyn std::any::Any + Send)) -> String {
    let owned = cause.downcast_ref::<String>().cloned();
    let text = owned.or_else(|| cause.downcast_ref::<&str>().map(|s| s.to_string()));
    text.unwrap_or_default().replace('\n', " ")
}

/// The answer to a request, also where the crate panics.
pub fn answer(request: &str) -> String {
    panic::catch_unwind(|| take_up(request)).unwrap_or_else(|cause| format!("PANIC {}", panic_text(&*cause)))
}
