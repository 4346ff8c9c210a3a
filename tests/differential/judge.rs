//! A small reading of document 01's table, with request #102: which number a request is refused with by checking, and 0 if it is not.
use crate::{
    drawing::space,
    request::{Call, Request},
};

type Broken = fn(&Request) -> bool;

/// The rules of a call, the lowest number first.
fn rules(call: Call) -> &'static [(u32, Broken)] {
    match call {
        Call::Sums | Call::Starts => &[(2, bad_list), (3, many_blocks), (4, bad_block)],
        Call::Positions | Call::Ranges => {
            &[(1, bad_side), (2, bad_list), (3, many_blocks), (4, bad_block), (10, no_space)]
        }
        Call::Description => &[(2, bad_list), (3, many_blocks)],
        Call::LineClue | Call::GridClues => &[(1, bad_side), (2, bad_list), (9, bad_code)],
        Call::Line => &[(1, bad_side), (2, bad_list), (3, many_blocks), (4, bad_block), (5, bad_cell)],
        Call::FullRun | Call::PointRun => &[
            (1, bad_side),
            (2, bad_list),
            (3, many_blocks),
            (4, bad_block),
            (5, bad_cell),
            (6, outside),
            (7, short_report),
        ],
    }
}

pub fn judge(request: &Request) -> u32 {
    let first = rules(request.call).iter().find(|(_, broken)| broken(request));
    first.map_or(0, |&(number, _)| number)
}

/// A width, height or length is 0 or above 64.
fn bad_side(r: &Request) -> bool {
    let sides = match r.call {
        Call::LineClue | Call::Line => [r.cells.len(), 1],
        Call::GridClues | Call::FullRun | Call::PointRun => [r.width, r.height],
        _ => [r.width, 1],
    };
    sides.iter().any(|&side| side == 0 || side > 64)
}

/// A lent list has the wrong length, or too little room (report excepted).
fn bad_list(r: &Request) -> bool {
    let cells = r.width.saturating_mul(r.height);
    let unequal = r.coloured && [&r.rows, &r.columns].iter().any(|clues| clues.sizes.len() != clues.colours.len());
    let miscounted = [(&r.rows, r.height), (&r.columns, r.width)].iter().any(|(clues, lines)| {
        let sum: u64 = clues.counts.iter().map(|&count| count as u64).sum();
        clues.counts.len() != *lines || clues.sizes.len() as u64 != sum
    });
    match r.call {
        Call::GridClues => r.cells.len() != cells || little_room(r),
        Call::Line => unequal || r.room.words[0] != r.cells.len() || little_room(r),
        Call::FullRun | Call::PointRun => r.cells.len() != cells || unequal || miscounted || little_room(r),
        _ => unequal || little_room(r),
    }
}

fn little_room(r: &Request) -> bool {
    let mut least = r.least_room();
    if r.is_run() {
        least.words[1] = 0;
    }
    let short = |given: &[usize], least: &[usize]| given.iter().zip(least).any(|(given, least)| given < least);
    short(&r.room.words, &least.words) || short(&r.room.wides, &least.wides) || r.room.memo < least.memo
}

/// A line has more than 64 blocks.
fn many_blocks(r: &Request) -> bool {
    if r.is_run() {
        r.rows.counts.iter().chain(&r.columns.counts).any(|&count| count > 64)
    } else {
        r.rows.sizes.len() > 64
    }
}

/// A colour is 1 or has not exactly one bit.
fn bad_colour(colour: u32) -> bool {
    colour == 1 || colour.count_ones() != 1
}

/// A block has size 0, or a bad colour.
fn bad_block(r: &Request) -> bool {
    let bad = |sizes: &[u32], colours: &[u32]| sizes.contains(&0) || colours.iter().any(|&colour| bad_colour(colour));
    [&r.rows, &r.columns].iter().any(|clues| bad(&clues.sizes, &r.colours_of(clues)))
}

/// A binary cell is above 2.
fn bad_cell(r: &Request) -> bool {
    !r.coloured && r.cells.iter().any(|&cell| cell > 2)
}

/// The point lies outside the grid.
fn outside(r: &Request) -> bool {
    r.call == Call::PointRun && (r.x >= r.width || r.y >= r.height)
}

fn short_report(r: &Request) -> bool {
    r.room.words[1] < r.room_number()
}

/// A code that is not blank is no colour. Binary pictures may have any codes.
fn bad_code(r: &Request) -> bool {
    r.coloured && r.cells.iter().any(|&code| code != r.blank && bad_colour(code))
}

/// The blocks need more than the length.
fn no_space(r: &Request) -> bool {
    space(&r.rows.sizes, &r.colours_of(&r.rows)) > r.width
}
