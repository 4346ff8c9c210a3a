//! Makes a request smaller while it keeps making a difference.
use std::time::{Duration, Instant};

use crate::{
    drawing::{clues, Clues},
    request::{Call, Request},
};

/// A request is small enough after this time, however large it is.
const PATIENCE: Duration = Duration::from_secs(30);

/// A request, and the picture that its clues belong to where one is known: then lines can be dropped so that a solution stays.
#[derive(Clone)]
pub struct Candidate {
    pub request: Request,
    pub picture: Option<Vec<u32>>,
}

type Step = Box<dyn Fn(&mut Candidate)>;

/// The request that no single step makes smaller. A step drops lines, a cell or a block, or puts a smaller number for one.
pub fn shrink(mut smallest: Candidate, mut differs: impl FnMut(&mut Request) -> bool) -> Request {
    let started = Instant::now();
    loop {
        let mut steps = steps(&smallest).into_iter().take_while(|_| started.elapsed() < PATIENCE);
        let smaller = steps.find_map(|step| {
            let mut candidate = smallest.clone();
            step(&mut candidate);
            differs(&mut candidate.request).then_some(candidate)
        });
        match smaller {
            Some(candidate) => smallest = candidate,
            None => return smallest.request,
        }
    }
}

/// The steps that can be made, those that drop most first. When no line can be dropped with the picture, it is forgotten.
fn steps(candidate: &Candidate) -> Vec<Step> {
    let request = &candidate.request;
    let mut steps = line_steps(request);
    if candidate.picture.is_some() {
        steps.push(Box::new(|c| c.picture = None));
    } else {
        steps.extend(block_steps(request, 0, &request.rows));
        steps.extend(block_steps(request, 1, &request.columns));
        steps.extend(cell_steps(request));
    }
    steps
}

/// How many sides a call is given: those of a grid, the length of a line, or none, and then the request's width may be any number.
fn sides_of(call: Call) -> usize {
    match call {
        Call::GridClues | Call::FullRun | Call::PointRun => 2,
        Call::Positions | Call::Ranges | Call::LineClue | Call::Line => 1,
        Call::Sums | Call::Starts | Call::Description => 0,
    }
}

/// Drops a half, a quarter or one of the rows or columns.
fn line_steps(request: &Request) -> Vec<Step> {
    let mut steps: Vec<Step> = vec![];
    let sides = [(request.width, drop_column as fn(&mut Candidate, usize)), (request.height, drop_row)];
    for (side, drop) in sides.into_iter().take(sides_of(request.call)) {
        for part in [side / 2, side / 4, 1].into_iter().filter(|&part| part > 0 && part < side) {
            for at in 0..=side - part {
                steps.push(Box::new(move |c| (0..part).for_each(|_| drop(c, at))));
            }
        }
    }
    steps
}

/// Drops a block of one direction, or makes it shorter, or gives it a lower colour.
fn block_steps(request: &Request, direction: usize, clues: &Clues) -> Vec<Step> {
    let mut steps: Vec<Step> = vec![];
    for (block, &size) in clues.sizes.iter().enumerate() {
        steps.push(Box::new(move |c| drop_block(clues_of(c, direction), block)));
        for smaller in [1, size / 2, size.max(1) - 1].into_iter().filter(|&s| s > 0 && s < size) {
            steps.push(Box::new(move |c| clues_of(c, direction).sizes[block] = smaller));
        }
        let colour = if request.coloured { clues.colours[block] } else { 2 };
        for lower in [2, 4].into_iter().filter(|&c| c < colour) {
            steps.push(Box::new(move |c| clues_of(c, direction).colours[block] = lower));
        }
    }
    steps
}

/// Puts a smaller number for a cell, or the first cell for the point.
fn cell_steps(request: &Request) -> Vec<Step> {
    let mut steps: Vec<Step> = vec![];
    for (at, &cell) in request.cells.iter().enumerate() {
        for smaller in (0..4).filter(|&c| c < cell) {
            steps.push(Box::new(move |c| c.request.cells[at] = smaller));
        }
    }
    if request.x + request.y > 0 {
        steps.push(Box::new(|c| (c.request.x, c.request.y) = (0, 0)));
    }
    steps
}

fn clues_of(candidate: &mut Candidate, direction: usize) -> &mut Clues {
    match direction {
        0 => &mut candidate.request.rows,
        _ => &mut candidate.request.columns,
    }
}

/// Drops a cell of each row, which for a call on blocks is one of the length.
fn drop_column(c: &mut Candidate, x: usize) {
    let width = c.request.width;
    let keep = |cells: &mut Vec<u32>| {
        let mut at = 0..;
        cells.retain(|_| at.next().unwrap_or(0) % width != x);
    };
    keep(&mut c.request.cells);
    c.picture.iter_mut().for_each(keep);
    c.request.width -= 1;
    c.request.x = c.request.x.min(width - 2);
    drop_clue(c, 1, x);
}

fn drop_row(c: &mut Candidate, y: usize) {
    let cells = y * c.request.width..(y + 1) * c.request.width;
    c.request.cells.drain(cells.clone());
    c.picture.iter_mut().for_each(|picture| drop(picture.drain(cells.clone())));
    c.request.height -= 1;
    c.request.y = c.request.y.min(c.request.height - 1);
    drop_clue(c, 0, y);
}

/// The clues after a line is dropped: the picture's, or those that are left.
fn drop_clue(c: &mut Candidate, direction: usize, line: usize) {
    if let Some(picture) = &c.picture {
        let (rows, columns) = clues(picture, c.request.width);
        c.request.set_clues([rows, columns]);
    } else if c.request.is_run() {
        let clues = clues_of(c, direction);
        let first: u32 = clues.counts[..line].iter().sum();
        (0..clues.counts[line]).for_each(|_| drop_block(clues, first as usize));
        clues.counts.remove(line);
    }
}

/// Drops a block, and counts it out of its line.
pub fn drop_block(clues: &mut Clues, block: usize) {
    let mut end = 0;
    let line = clues.counts.iter().position(|&count| {
        end += count as usize;
        block < end
    });
    clues.counts[line.expect("a block of a line")] -= 1;
    clues.sizes.remove(block);
    if !clues.colours.is_empty() {
        clues.colours.remove(block);
    }
}
