//! Requests that break one or several of document 01's rules: the number has to be the reading's, and no lent memory may change.
use crate::{
    compare::Comparison,
    drawing::{Clues, Random},
    random::draw_any,
    request::{Call, Request},
};

/// A number that no side may be.
fn bad_side(random: &mut Random, side: usize) -> usize {
    [0, 65, 66, usize::MAX, side.wrapping_add(1 << 32), side << 58][random.below(6)]
}

fn some_clues<'a>(random: &mut Random, request: &'a mut Request) -> &'a mut Clues {
    if request.is_run() && random.below(2) == 0 {
        &mut request.columns
    } else {
        &mut request.rows
    }
}

/// A list with an entry less, or one more.
fn spoil_length(random: &mut Random, request: &mut Request) {
    let less = random.below(2) == 0;
    let coloured = request.coloured;
    let list = match random.below(4) {
        0 => &mut request.cells,
        1 if request.is_run() => &mut some_clues(random, request).counts,
        2 if coloured => &mut some_clues(random, request).colours,
        _ => &mut some_clues(random, request).sizes,
    };
    if less {
        list.pop();
    } else {
        list.push(2);
    }
}

fn spoil_room(random: &mut Random, request: &mut Request) {
    let least = request.least_room();
    let (list, wide) = (random.below(6), random.below(2));
    let shorten = |room: &mut usize, least: usize| *room = least.saturating_sub(1).min(*room);
    match random.below(4) {
        0 => request.room.memo = [0, 4159][random.below(2)],
        1 => shorten(&mut request.room.wides[wide], least.wides[wide]),
        2 if request.call == Call::Line => request.room.words[0] += 1,
        _ => shorten(&mut request.room.words[list], least.words[list]),
    }
}

/// 65 blocks or more in one line, with room for them.
fn crowd(random: &mut Random, request: &mut Request) {
    let more = 65 + random.below(3);
    let coloured = request.coloured;
    let clues = some_clues(random, request);
    clues.counts.iter_mut().take(1).for_each(|count| *count += more as u32);
    let added = vec![2; more];
    clues.sizes.splice(..0, added.iter().copied());
    clues.colours.splice(..0, added.into_iter().take(if coloured { more } else { 0 }));
    let room = &mut request.room;
    room.wides.iter_mut().chain(&mut room.words[..2]).for_each(|room| *room += more);
}

fn spoil_block(random: &mut Random, request: &mut Request) {
    let clues = some_clues(random, request);
    let bad_colour = [0, 1, 3, 6, u32::MAX][random.below(5)];
    let colour_too = random.below(2) == 0;
    if !clues.sizes.is_empty() {
        let block = random.below(clues.sizes.len());
        match clues.colours.get_mut(block) {
            Some(colour) if colour_too => *colour = bad_colour,
            _ => clues.sizes[block] = 0,
        }
    }
}

fn spoil_cell(random: &mut Random, request: &mut Request) {
    if !request.cells.is_empty() {
        let at = random.below(request.cells.len());
        request.cells[at] = [3, 4, 6, 1, u32::MAX][random.below(5)];
    }
}

/// Counts whose sum is right in 32 bits only.
fn wrap_counts(random: &mut Random, request: &mut Request) {
    if let [first, second, ..] = &mut some_clues(random, request).counts[..] {
        *first = first.wrapping_add(1 << 31);
        *second = second.wrapping_add(1 << 31);
    }
}

/// Breaks a rule, where the call has it.
fn spoil(random: &mut Random, request: &mut Request) {
    match random.below(10) {
        0 => request.width = bad_side(random, request.width),
        1 => request.height = bad_side(random, request.height),
        2 => request.cells.resize([0, 65][random.below(2)], 1),
        3 => spoil_length(random, request),
        4 => spoil_room(random, request),
        5 => crowd(random, request),
        6 => spoil_block(random, request),
        7 => spoil_cell(random, request),
        8 if request.is_run() => wrap_counts(random, request),
        8 => request.width = 1,
        _ if random.below(2) == 0 => request.x = request.width + random.below(2),
        _ => request.y = bad_side(random, request.height),
    }
}

/// Takes out what the call has no list for; the length of a line, and how many blocks it has, are those of its lists.
fn tidy(request: &mut Request) {
    match request.call {
        Call::FullRun | Call::PointRun => return,
        Call::LineClue | Call::GridClues => request.rows = Clues::default(),
        Call::Line => {}
        _ => request.cells.clear(),
    }
    if matches!(request.call, Call::Line | Call::LineClue) {
        request.width = request.cells.len();
    }
    request.rows.counts.iter_mut().for_each(|count| *count = request.rows.sizes.len() as u32);
}

/// Requests for each scale of 1.
const REQUESTS: f64 = 2e6;

/// All of them. What is spoiled in vain is compared as any other.
pub fn compare(comparison: &mut Comparison, seed: u64, scale: f64) {
    let mut random = Random(seed);
    for _ in 0..(REQUESTS * scale) as u64 {
        let coloured = random.below(2) == 0;
        let mut request = draw_any(&mut random, coloured);
        comparison.give_room(&mut request);
        for _ in 0..[1, 1, 2, 4][random.below(4)] {
            spoil(&mut random, &mut request);
        }
        tidy(&mut request);
        comparison.hold_as_it_is(&request);
    }
    comparison.end_group(&format!("refusals by checking, seed {seed}"));
}
