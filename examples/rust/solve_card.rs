//! A coloured card, as a device would play it: the clues of a picture, what one line tells, a full run, a mark, and two refusals; and a
//! scanned picture, its clues, and its text again.
//!
//! Build: scripts/build.sh device, then rustc --edition 2021 -L native=target/staticlib examples/rust/solve_card.rs
mod scorepuddle;

use scorepuddle::*;

const SIDE: usize = 5;
const CELLS: usize = SIDE * SIDE;

/// A colour is one bit; a cell is the set of colours that it may still have. Bit 0 is blank.
const BLANK: u32 = 1;
const RED: u32 = 2;
const GREEN: u32 = 4;
const OPEN: u32 = BLANK | RED | GREEN;

/// The picture's codes: blank, red and green.
#[rustfmt::skip]
const PICTURE: [u32; CELLS] = [
    4, 4, 4, 1, 1,
    4, 2, 4, 1, 1,
    4, 4, 4, 1, 1,
    1, 1, 1, 2, 1,
    1, 1, 1, 1, 2,
];

/// A cell with one colour as its letter, one with several as their number.
fn show(cells: &[u32]) -> String {
    let letter = |cell: &u32| match *cell {
        BLANK => " .".to_string(),
        RED => " R".to_string(),
        GREEN => " G".to_string(),
        several => format!(" {several}"),
    };
    cells.iter().map(letter).collect()
}

fn show_board(grid: &[u32]) {
    grid.chunks(SIDE).for_each(|row| println!("{}", show(row)));
}

/// What a line tells by itself, with all of its cells open: a hint that a device may give.
fn show_line(name: &str, sizes: &[u32], colours: &[u32], memo: &mut [u8]) {
    let mut line = [0; SIDE];
    let number = sp_solve_line(&[OPEN; SIDE], sizes, colours, memo, &mut line);
    println!("{name}, sizes {sizes:?}, colours {colours:?}: number {number},{}", show(&line));
}

/// A picture as a scanner writes it, in plain PBM: read, its clues made, and written in the library's one form.
fn show_scan(scan: &[u8]) {
    let (mut codes, mut text) = ([0; CELLS], [0; PBM_BYTES]);
    let read = sp_read_pbm(scan, &mut codes);
    println!("scan: {read:?}");
    if read.number != DONE {
        return;
    }
    let codes = &codes[..read.width * read.height];
    let (mut row_counts, mut row_sizes) = ([0; SIDE], [0; CELLS]);
    let (mut column_counts, mut column_sizes) = ([0; SIDE], [0; CELLS]);
    let clues = sp_binary_clues(
        read.width,
        read.height,
        codes,
        BLANK,
        &mut row_counts,
        &mut row_sizes,
        &mut column_counts,
        &mut column_sizes,
    );
    assert_eq!(clues.number, DONE);
    println!("rows {:?} {:?}", &row_counts[..read.height], &row_sizes[..clues.rows]);
    println!("columns {:?} {:?}", &column_counts[..read.width], &column_sizes[..clues.columns]);
    let written = sp_write_pbm(read.width, read.height, codes, &mut text);
    println!("text: {written:?}");
    print!("{}", String::from_utf8_lossy(&text[..written.count]));
}

fn main() {
    // The clues of a direction: how many blocks each line has, and the sizes and colours of all blocks, line after line. There is room for a
    // count a line and for a block a cell; cut to what was written, the lists are those that a run takes.
    let (mut row_counts, mut row_sizes, mut row_colours) = ([0; SIDE], [0; CELLS], [0; CELLS]);
    let (mut column_counts, mut column_sizes, mut column_colours) = ([0; SIDE], [0; CELLS], [0; CELLS]);
    let clues = sp_clues(
        SIDE,
        SIDE,
        &PICTURE,
        BLANK,
        &mut row_counts,
        &mut row_sizes,
        &mut row_colours,
        &mut column_counts,
        &mut column_sizes,
        &mut column_colours,
    );
    println!("clues: {clues:?}");
    let (sizes, colours) = (&row_sizes[..clues.rows], &row_colours[..clues.rows]);
    let rows = Clues { counts: &row_counts, sizes, colours };
    let (sizes, colours) = (&column_sizes[..clues.columns], &column_colours[..clues.columns]);
    let columns = Clues { counts: &column_counts, sizes, colours };

    // Working memory may hold anything before a call, so one memo and one stack serve every call.
    let (mut memo, mut stack) = ([0; MEMO_BYTES], [0; STACK_ENTRIES]);
    show_line("row 0", &rows.sizes[..1], &rows.colours[..1], &mut memo);
    show_line("row 1", &rows.sizes[1..4], &rows.colours[1..4], &mut memo);

    // The report needs an entry for each colour that a cell may lose. The run leaves open what no line can decide: the last two rows could also
    // be the other way round.
    let (mut grid, mut report) = ([OPEN; CELLS], [0; CELLS * 2]);
    let answer = sp_run(SIDE, SIDE, &mut grid, rows, columns, &mut report, &mut memo, &mut stack);
    println!("full run: {answer:?}");
    show_board(&grid);

    // The player marks a cell; the run from there takes up its row and its column, and the lines that follow from them.
    grid[3 * SIDE + 4] = RED;
    let answer = sp_run_point(SIDE, SIDE, 4, 3, &mut grid, rows, columns, &mut report, &mut memo, &mut stack);
    println!("red at (4, 3): {answer:?}, cells {:?}", &report[..answer.entries]);
    show_board(&grid);

    // Two refusals that are found by checking, so that nothing changes: a report that might be too short, and a point outside.
    let mut open = [OPEN; CELLS];
    let answer = sp_run(SIDE, SIDE, &mut open, rows, columns, &mut report[..49], &mut memo, &mut stack);
    println!("a report of 49 entries: {answer:?}");
    let answer = sp_run_point(SIDE, SIDE, 5, 0, &mut open, rows, columns, &mut report, &mut memo, &mut stack);
    println!("the point (5, 0): {answer:?}");
    assert_eq!(open, [OPEN; CELLS]);

    // A picture from outside, and the same cut short.
    show_scan(b"P1 # width\n4 # height\n3\n0110 1111 0100\n");
    show_scan(b"P1 4 3 0110 1111 010");
}
