//! Requests at random, of every size that the calls take.
use crate::{
    compare::{end_board, Comparison},
    drawing::{clues, paint_blobs, paint_noise, place, space, Random},
    request::{Call, Request},
    shrink::drop_block,
};

/// Different colours, so many: bits above that of blank.
fn palette(random: &mut Random, count: usize) -> Vec<u32> {
    let mut bits: Vec<u32> = (1..32).collect();
    (0..count).map(|_| 1 << bits.remove(random.below(bits.len()))).collect()
}

/// Black, or 1 to 31 colours, most often few.
fn draw_palette(random: &mut Random, coloured: bool) -> Vec<u32> {
    let most = [2, 4, 8, 31][random.below(4)];
    let count = 1 + random.below(most);
    if coloured {
        palette(random, count)
    } else {
        vec![2]
    }
}

/// Blocks for a line of the length: a few or as many as there is space for, in some cases one or all up to 64 more, or one of any size.
fn draw_blocks(random: &mut Random, length: usize, palette: &[u32]) -> (Vec<u32>, Vec<u32>) {
    let crowded = random.below(32) == 0;
    let limit = if crowded { usize::MAX } else { 1 + random.below(length) };
    let longest = [1, 2, 4, length][random.below(4)];
    let (mut sizes, mut colours): (Vec<u32>, Vec<u32>) = (vec![], vec![]);
    while sizes.len() < 64 && space(&sizes, &colours) < limit {
        sizes.push(1 + random.below(longest) as u32);
        colours.push(random.colour(palette));
    }
    let keeps_last = crowded || random.below(16) == 0 || space(&sizes, &colours) <= length;
    if !keeps_last {
        sizes.pop();
        colours.pop();
    }
    let slack = length.saturating_sub(space(&sizes, &colours)) as u32;
    match (random.below(8), sizes.last_mut()) {
        (0, Some(last)) => *last += slack,
        (1, Some(last)) if random.below(8) == 0 => *last = random.next() as u32 | 1,
        _ => {}
    }
    (sizes, colours)
}

/// What is known of a picture: a set for each cell, or for binary cells a number.
struct Start {
    coloured: bool,
    /// All colours of the palette, and blank.
    open: u32,
    /// Of 8 cells so many are open, and so many of the others half-known.
    open_eighths: usize,
    half_eighths: usize,
}

impl Start {
    fn draw(random: &mut Random, coloured: bool, palette: &[u32]) -> Start {
        Start {
            coloured,
            open: palette.iter().fold(1, |set, colour| set | colour),
            open_eighths: [8, 8, 7, 4, 1, 0][random.below(6)],
            half_eighths: random.below(9),
        }
    }

    fn cell(&self, random: &mut Random, code: u32) -> u32 {
        let open = random.below(8) < self.open_eighths;
        match (self.coloured, open) {
            (false, true) => 0,
            (false, false) => code,
            (true, true) => self.open,
            (true, false) if random.below(8) < self.half_eighths => code | (self.open & random.next() as u32),
            (true, false) => code,
        }
    }

    /// Cells that are wrong, empty, or have a bit that no clue has.
    fn damage(&self, random: &mut Random, cells: &mut [u32]) {
        for _ in 0..[0, 0, 0, 1, 2, 3][random.below(6)] {
            let at = random.below(cells.len());
            cells[at] = match (self.coloured, random.below(4)) {
                (false, _) => random.below(3) as u32,
                (true, 0) => 0,
                (true, 1) => random.next() as u32,
                (true, _) => self.open & random.next() as u32,
            };
        }
        let strays = self.coloured && random.below(4) == 0;
        for cell in cells.iter_mut().filter(|_| strays) {
            if random.below(4) == 0 {
                *cell |= 1 << random.below(32);
            }
        }
    }
}

fn draw_line(random: &mut Random, coloured: bool) -> Request {
    let length = 1 + random.below(64);
    let palette = draw_palette(random, coloured);
    let (sizes, colours) = draw_blocks(random, length, &palette);
    let start = Start::draw(random, coloured, &palette);
    let placed = if space(&sizes, &colours) <= length {
        place(random, length, &sizes, &colours)
    } else {
        (0..length).map(|_| random.colour(&palette)).collect()
    };
    let mut cells: Vec<u32> = placed.iter().map(|&code| start.cell(random, code)).collect();
    start.damage(random, &mut cells);
    Request::on_line(coloured, cells, &sizes, &colours)
}

/// The sides of a board: of 64 boards one is 64 by 64, a few have any sides, most have short ones.
fn draw_sides(random: &mut Random) -> (usize, usize) {
    let most = match random.below(64) {
        0 => return (64, 64),
        1..=3 => 64,
        4..=15 => 24,
        _ => 8,
    };
    (1 + random.below(most), 1 + random.below(most))
}

fn draw_picture(random: &mut Random, width: usize, height: usize, palette: &[u32]) -> Vec<u32> {
    if random.below(2) == 0 {
        paint_blobs(random, width, height, palette)
    } else {
        let tenths = random.below(11);
        paint_noise(random, width * height, tenths, palette)
    }
}

/// Makes one clue another one: a block is gone, longer, shorter or of any size, or has another colour.
fn spoil_clue(random: &mut Random, request: &mut Request, palette: &[u32]) {
    let clues = if random.below(2) == 0 { &mut request.rows } else { &mut request.columns };
    if clues.sizes.is_empty() {
        return;
    }
    let block = random.below(clues.sizes.len());
    match random.below(5) {
        0 => drop_block(clues, block),
        1 => clues.sizes[block] += 1 + random.below(2) as u32,
        2 => clues.sizes[block] = clues.sizes[block].max(2) - 1,
        3 => clues.sizes[block] = random.next() as u32 | 1,
        _ if request.coloured => clues.colours[block] = random.colour(palette),
        _ => {}
    }
}

fn draw_run(random: &mut Random, coloured: bool) -> Request {
    let (width, height) = draw_sides(random);
    let palette = draw_palette(random, coloured);
    let picture = draw_picture(random, width, height, &palette);
    let (rows, columns) = clues(&picture, width);
    let start = Start::draw(random, coloured, &palette);
    let mut cells: Vec<u32> = picture.iter().map(|&code| start.cell(random, code)).collect();
    start.damage(random, &mut cells);
    let point = (random.below(2) == 0).then(|| (random.below(width), random.below(height)));
    let mut request = Request::on_board(coloured, point, cells, [rows, columns]);
    if random.below(6) == 0 {
        spoil_clue(random, &mut request, &palette);
    }
    request
}

/// A run from a cell that was narrowed, rightly or not, or opened again on the board that a full run leaves; none where it is refused.
fn mark(random: &mut Random, mut request: Request) -> Option<Request> {
    request.call = Call::FullRun;
    request.cells = end_board(&request)?;
    let at = random.below(request.cells.len());
    (request.x, request.y) = (at % request.width, at / request.width);
    request.call = Call::PointRun;
    let open = request.cells.iter().fold(1, |set, cell| set | cell);
    let cell = &mut request.cells[at];
    *cell = match (request.coloured, random.below(4)) {
        (false, _) => random.below(3) as u32,
        (true, 0) => open,
        (true, 1) => open & random.next() as u32,
        (true, _) if cell.count_ones() > 1 => *cell & (*cell - 1),
        (true, _) => *cell,
    };
    Some(request)
}

/// Blocks for the calls on them: of any sizes, or such as fit the length.
fn draw_block_call(random: &mut Random, coloured: bool) -> Request {
    let palette = draw_palette(random, coloured);
    let length = 1 + random.below(64);
    let call = [Call::Sums, Call::Starts, Call::Positions, Call::Ranges, Call::Description][random.below(5)];
    let (mut sizes, mut colours) = draw_blocks(random, length, &palette);
    let fits = matches!(call, Call::Positions | Call::Ranges);
    while fits && space(&sizes, &colours) > length {
        sizes.pop();
        colours.pop();
    }
    for block in 0..if fits { 0 } else { sizes.len() } {
        if random.below(2) == 0 {
            sizes[block] = random.next() as u32 >> random.below(32) | 1;
        }
        if call == Call::Description && random.below(4) == 0 {
            (sizes[block], colours[block]) = (random.below(2) as u32, random.below(4) as u32);
        }
    }
    let call = if call == Call::Ranges && !coloured { Call::Positions } else { call };
    Request::on_blocks(call, coloured, length, &sizes, &colours)
}

/// 1, or a number of any length.
fn draw_code(random: &mut Random) -> u32 {
    if random.below(2) == 0 {
        1
    } else {
        random.next() as u32 >> random.below(32)
    }
}

/// The inks of a binary picture, none of them blank: one or, in three cases of five, several of any codes.
fn draw_inks(random: &mut Random, blank: u32) -> Vec<u32> {
    let mut inks = vec![draw_code(random)];
    for _ in 0..[0, 0, 1, 2, 63][random.below(5)] {
        inks.push(random.next() as u32 >> random.below(32));
    }
    inks.into_iter().map(|ink| if ink == blank { !blank } else { ink }).collect()
}

/// A picture whose blank code is any number, as are a binary picture's inks.
fn draw_clue_call(random: &mut Random, coloured: bool) -> Request {
    let call = [Call::LineClue, Call::GridClues][random.below(2)];
    let (width, height) = match call {
        Call::LineClue => (1 + random.below(64), 1),
        _ => draw_sides(random),
    };
    let blank = draw_code(random);
    let inks = if coloured { draw_palette(random, true) } else { draw_inks(random, blank) };
    let numbers: Vec<u32> = (2..).take(inks.len()).collect();
    let picture = draw_picture(random, width, height, &numbers).into_iter();
    let codes = picture.map(|number| if number == 1 { blank } else { inks[number as usize - 2] });
    Request::on_picture(call, coloured, width, blank, codes.collect())
}

/// A request of any call.
pub fn draw_any(random: &mut Random, coloured: bool) -> Request {
    let draws = [draw_block_call, draw_clue_call, draw_line, draw_run];
    draws[random.below(draws.len())](random, coloured)
}

/// Requests for each scale of 1.
const BLOCKS: f64 = 2e6;
const CLUES: f64 = 1e6;
const LINES: f64 = 4e6;
const RUNS: f64 = 3e5;

/// Compares so many requests of a kind, and the marks on runs.
fn compare_group(
    comparison: &mut Comparison,
    random: &mut Random,
    requests: f64,
    mut draw: impl FnMut(&mut Random) -> Request,
) {
    for _ in 0..requests as u64 {
        let mut request = draw(random);
        comparison.hold(&mut request);
        let marked = if request.is_run() { mark(random, request) } else { None };
        marked.into_iter().for_each(|mut marked| comparison.hold(&mut marked));
    }
}

/// All groups, each with a seed of its own and so many times its requests.
pub fn compare(comparison: &mut Comparison, mut seed: u64, scale: f64) {
    type Draw = fn(&mut Random, bool) -> Request;
    let groups: [(&str, f64, Draw); 4] = [
        ("blocks", BLOCKS, draw_block_call),
        ("clues", CLUES, draw_clue_call),
        ("lines", LINES, draw_line),
        ("runs", RUNS, draw_run),
    ];
    for (name, requests, draw) in groups {
        for (coloured, kind) in [(false, "binary"), (true, "1 to 31 colours")] {
            compare_group(comparison, &mut Random(seed), requests * scale, |random| draw(random, coloured));
            comparison.end_group(&format!("{name}, {kind}, seed {seed}"));
            seed += 1;
        }
    }
}
