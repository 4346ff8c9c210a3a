//! Binary pictures of several inks. By request #102 inks that touch are one block; the crate makes a block of each. So what stands in for its
//! own answer is a reading of the request, and its answer for the picture in black and white.
use std::fmt;

use crate::request::{join, Call, Request};

/// Whether the clues of a binary picture are asked for in which two different codes are not blank.
pub fn has_several_inks(request: &Request) -> bool {
    let asks_clues = matches!(request.call, Call::LineClue | Call::GridClues);
    let mut inks = request.cells.iter().filter(|&&code| code != request.blank);
    let first = inks.next();
    asks_clues && !request.coloured && inks.any(|code| Some(code) != first)
}

/// The same picture with 1 for blank and 2 for every other code.
pub fn in_black_and_white(request: &Request) -> Request {
    let cells = request.cells.iter().map(|&code| if code == request.blank { 1 } else { 2 });
    Request { cells: cells.collect(), blank: 1, ..request.clone() }
}

/// The answer by the request's words, as the oracle would write it: a block for each maximal stretch of codes that are not blank.
pub fn read_stretches(request: &Request) -> String {
    let &Request { width, blank, ref cells, .. } = request;
    let mut text = String::from("0");
    let rows: Vec<Vec<usize>> = cells.chunks(width).map(|row| stretches(row, blank)).collect();
    if request.call == Call::LineClue {
        write_blocks(&mut text, &rows).unwrap();
        return text;
    }
    let column = |x: usize| cells[x..].iter().step_by(width).copied().collect::<Vec<u32>>();
    let columns: Vec<Vec<usize>> = (0..width).map(|x| stretches(&column(x), blank)).collect();
    for lines in [rows, columns] {
        join(&mut text, lines.iter().map(Vec::len)).unwrap();
        write_blocks(&mut text, &lines).unwrap();
    }
    text
}

/// The sizes of a line's stretches.
fn stretches(line: &[u32], blank: u32) -> Vec<usize> {
    let parts = line.split(|&code| code == blank);
    parts.map(|part| part.len()).filter(|&size| size > 0).collect()
}

/// How many blocks all lines have, and their sizes.
fn write_blocks(text: &mut String, lines: &[Vec<usize>]) -> fmt::Result {
    let sizes = lines.concat();
    join(text, [sizes.len()])?;
    join(text, sizes)
}
