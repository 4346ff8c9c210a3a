//! Cards of Debian's sgt-pattern, one game ID a line on standard input: each has one solution that can be had without guessing, so a full
//! run must end with one colour in each cell, and the clues of that picture must be the card's.
use std::{
    io::{self, BufRead},
    process,
};

#[path = "../drawing.rs"]
#[allow(dead_code)]
mod drawing;
#[path = "../../examples/rust/scorepuddle.rs"]
mod scorepuddle;

use drawing::Clues;

struct Card {
    width: usize,
    height: usize,
    rows: Clues,
    columns: Clues,
}

/// Reads `WIDTHxHEIGHT:CLUES`: the clues of the columns, then those of the rows, with `/` between them and `.` between blocks.
fn read_card(id: &str) -> Option<Card> {
    let (sides, clues) = id.split_once(':')?;
    let (width, height) = sides.split_once('x')?;
    let (width, height) = (width.parse().ok()?, height.parse().ok()?);
    let clues: Vec<&str> = clues.split('/').collect();
    let (columns, rows) = (clues.get(..width)?, clues.get(width..)?);
    (rows.len() == height).then_some(Card { width, height, rows: read_clues(rows)?, columns: read_clues(columns)? })
}

fn read_clues(lines: &[&str]) -> Option<Clues> {
    let mut clues = Clues::default();
    for line in lines {
        let before = clues.sizes.len();
        for word in line.split_terminator('.') {
            clues.sizes.push(word.parse().ok()?);
        }
        clues.counts.push((clues.sizes.len() - before) as u32);
    }
    Some(clues)
}

fn lent(clues: &Clues) -> scorepuddle::Clues<'_> {
    let Clues { counts, sizes, colours } = clues;
    scorepuddle::Clues { counts, sizes, colours }
}

/// What is wrong with the run on a card, if anything is.
fn find_fault(card: &Card) -> Option<String> {
    let cells = card.width * card.height;
    let (mut grid, mut report) = (vec![0; cells], vec![0; cells]);
    let (mut memo, mut stack) = ([0; scorepuddle::MEMO_BYTES], [0; scorepuddle::STACK_ENTRIES]);
    let (rows, columns) = (lent(&card.rows), lent(&card.columns));
    let (width, height) = (card.width, card.height);
    let answer =
        scorepuddle::sp_run_binary(width, height, &mut grid, rows, columns, &mut report, &mut memo, &mut stack);
    let same = |a: &Clues, b: &Clues| a.counts == b.counts && a.sizes == b.sizes;
    if answer.number != scorepuddle::DONE {
        return Some(format!("{answer:?}"));
    }
    let open = grid.iter().filter(|&&cell| cell != 1 && cell != 2).count();
    if open > 0 {
        return Some(format!("{open} cells are left open"));
    }
    let (picture_rows, picture_columns) = drawing::clues(&grid, width);
    let alike = same(&picture_rows, &card.rows) && same(&picture_columns, &card.columns);
    (!alike).then(|| "the picture has other clues".to_string())
}

fn main() {
    let (mut cards, mut failed) = (0, 0);
    for id in io::stdin().lock().lines().map(|line| line.expect("a line")) {
        cards += 1;
        let fault = read_card(&id).map_or(Some("no card".to_string()), |card| find_fault(&card));
        if let Some(fault) = fault {
            failed += 1;
            println!("{id}: {fault}");
        }
    }
    println!("{cards} cards, {failed} failed");
    process::exit(if cards > 0 && failed == 0 { 0 } else { 1 });
}
