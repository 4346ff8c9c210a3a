//! Every small request of a kind.
use crate::{
    compare::Comparison,
    drawing::{space, Clues},
    request::{Call, Request},
};

/// Blocks: sizes, and colours.
type Blocks = (Vec<u32>, Vec<u32>);

/// All lists of blocks of these colours whose minimal space is at most so much.
fn fitting_blocks(most: usize, colours: &[u32]) -> Vec<Blocks> {
    let mut all = vec![(vec![], vec![])];
    let mut next = 0;
    while next < all.len() {
        let (sizes, earlier): Blocks = all[next].clone();
        let taken = space(&sizes, &earlier);
        for &colour in colours {
            let gap = usize::from(earlier.last() == Some(&colour));
            for size in 1..(most + 1).saturating_sub(taken + gap) {
                all.push(([&sizes[..], &[size as u32]].concat(), [&earlier[..], &[colour]].concat()));
            }
        }
        next += 1;
    }
    all
}

/// Every word of the length over the letters.
fn words(letters: &[u32], length: usize) -> impl Iterator<Item = Vec<u32>> + '_ {
    let letter = move |word: usize, at: usize| letters[word / letters.len().pow(at as u32) % letters.len()];
    (0..letters.len().pow(length as u32)).map(move |word| (0..length).map(|at| letter(word, at)).collect())
}

/// Every choice of one of so many for each of several places.
fn choices(of: usize, places: usize) -> Vec<Vec<usize>> {
    let numbers: Vec<u32> = (0..of as u32).collect();
    let choices = words(&numbers, places);
    choices.map(|word| word.into_iter().map(|n| n as usize).collect()).collect()
}

/// Lines to a length: every content of the cells, with all blocks whose minimal space is at most one cell more than the line has.
fn lines(comparison: &mut Comparison, coloured: bool, most: usize, cells: &[u32], colours: &[u32]) {
    for length in 1..=most {
        for (sizes, colours) in fitting_blocks(length + 1, colours) {
            let mut request = Request::on_line(coloured, vec![0; length], &sizes, &colours);
            for word in words(cells, length) {
                request.cells = word;
                comparison.hold(&mut request);
            }
        }
    }
}

/// The clues of one direction, as many lines as are chosen.
fn chosen(blocks: &[Blocks], choice: &[usize]) -> Clues {
    let mut clues = Clues::default();
    for &line in choice {
        let (sizes, colours) = &blocks[line];
        clues.counts.push(sizes.len() as u32);
        clues.sizes.extend(sizes);
        clues.colours.extend(colours);
    }
    clues
}

/// Boards of a size: every content of the cells, all blocks for each line whose minimal space is at most so much more than the line has, a full
/// run and a run from every point.
fn boards(
    comparison: &mut Comparison,
    [width, height]: [usize; 2],
    coloured: bool,
    cells: &[u32],
    colours: &[u32],
    more: usize,
) {
    let points = (0..width * height).map(|at| Some((at % width, at / width)));
    let starts: Vec<Option<(usize, usize)>> = [None].into_iter().chain(points).collect();
    let (row_blocks, column_blocks) = (fitting_blocks(width + more, colours), fitting_blocks(height + more, colours));
    let column_choices = choices(column_blocks.len(), width);
    for rows in choices(row_blocks.len(), height) {
        for columns in &column_choices {
            let clues = [chosen(&row_blocks, &rows), chosen(&column_blocks, columns)];
            for &start in &starts {
                let mut request = Request::on_board(coloured, start, vec![], clues.clone());
                for word in words(cells, width * height) {
                    request.cells = word;
                    comparison.hold(&mut request);
                }
            }
        }
    }
}

/// Lists of up to so many blocks: every size and every colour of the given ones.
fn block_lists(most: usize, sizes: &[u32], colours: &[u32]) -> Vec<Blocks> {
    let block = |&n: &usize| (sizes[n / colours.len()], colours[n % colours.len()]);
    let lists = (0..=most).flat_map(|count| choices(sizes.len() * colours.len(), count));
    lists.map(|list| list.iter().map(block).unzip()).collect()
}

/// The calls on blocks: every list of up to so many, with every length that they fit. A description has blocks that are none, too.
fn blocks(comparison: &mut Comparison, coloured: bool, most: usize, colours: &[u32]) {
    for (sizes, colours) in block_lists(most, &[1, 2, 3, 5], colours) {
        for call in [Call::Sums, Call::Starts] {
            comparison.hold(&mut Request::on_blocks(call, coloured, 0, &sizes, &colours));
        }
        let kinds: &[Call] = if coloured { &[Call::Positions, Call::Ranges] } else { &[Call::Positions] };
        for &call in kinds {
            for length in space(&sizes, &colours).max(1)..=24 {
                comparison.hold(&mut Request::on_blocks(call, coloured, length, &sizes, &colours));
            }
        }
    }
    let any_colours: &[u32] = if coloured { &[0, 1, 2] } else { &[2] };
    for (sizes, colours) in block_lists(most, &[0, 1, 2], any_colours) {
        comparison.hold(&mut Request::on_blocks(Call::Description, coloured, 0, &sizes, &colours));
    }
}

/// Pictures of up to so many cells: every content of each of the sets of codes, in which the blank code is first.
fn pictures(comparison: &mut Comparison, coloured: bool, most: usize, sets: &[&[u32]]) {
    for codes in sets {
        for length in 1..=most {
            for word in words(codes, length) {
                comparison.hold(&mut Request::on_picture(Call::LineClue, coloured, length, codes[0], word.clone()));
                for width in (1..=length).filter(|width| length % width == 0) {
                    comparison.hold(&mut Request::on_picture(Call::GridClues, coloured, width, codes[0], word.clone()));
                }
            }
        }
    }
}

const BINARY: [u32; 3] = [0, 1, 2];
const SETS: [u32; 16] = [0, 1, 2, 3, 4, 5, 6, 7, 8, 9, 10, 11, 12, 13, 14, 15];

fn compare_blocks(comparison: &mut Comparison) {
    blocks(comparison, false, 5, &[2]);
    comparison.end_group("blocks, binary: up to 5 of sizes 1 2 3 5, for the description 0 1 2; lengths to 24");
    blocks(comparison, true, 4, &[2, 4]);
    comparison.end_group("blocks, 2 colours: up to 4 of sizes 1 2 3 5, for the description 0 1 2; lengths to 24");
}

fn compare_clues(comparison: &mut Comparison) {
    pictures(comparison, false, 12, &[&[1, 2], &[2, 1], &[0, 1], &[7, u32::MAX]]);
    comparison.end_group("clues, binary: lines and grids of every shape to 12 cells, 4 blank codes");
    pictures(comparison, false, 9, &[&[1, 2, 3], &[2, 1, 3], &[0, 1, u32::MAX], &[u32::MAX, 0, 7]]);
    comparison.end_group("clues, binary, 2 inks or fewer: lines and grids of every shape to 9 cells, 4 blank codes");
    pictures(comparison, true, 9, &[&[1, 2, 4], &[2, 4, 8], &[0, 2, 4], &[u32::MAX, 2, 1 << 31]]);
    comparison.end_group("clues, 2 colours: lines and grids of every shape to 9 cells, 4 blank codes");
}

fn compare_lines(comparison: &mut Comparison) {
    lines(comparison, false, 10, &BINARY, &[2]);
    comparison.end_group("lines, binary: to 10 cells");
    lines(comparison, true, 7, &SETS[..4], &[2]);
    comparison.end_group("lines, 1 colour: to 7 cells of every set");
    lines(comparison, true, 5, &SETS[..8], &[2, 4]);
    comparison.end_group("lines, 2 colours: to 5 cells of every set");
    lines(comparison, true, 3, &SETS, &[2, 4, 8]);
    comparison.end_group("lines, 3 colours: to 3 cells of every set");
}

fn compare_boards(comparison: &mut Comparison) {
    for sides in [[1, 1], [2, 1], [1, 2], [3, 1], [1, 3], [2, 2]] {
        boards(comparison, sides, false, &BINARY, &[2], 1);
    }
    comparison.end_group("boards, binary: to 3 x 1, 1 x 3 and 2 x 2; full and every point");
    for sides in [[3, 2], [2, 3], [4, 1], [1, 4]] {
        boards(comparison, sides, false, &BINARY, &[2], 0);
    }
    comparison.end_group("boards, binary: 3 x 2, 2 x 3, 4 x 1, 1 x 4, blocks that fit; full and every point");
    boards(comparison, [3, 3], false, &[0], &[2], 1);
    comparison.end_group("boards, binary: 3 x 3, all cells open; full and every point");
    for sides in [[1, 1], [2, 1], [1, 2], [2, 2]] {
        boards(comparison, sides, true, &SETS[..4], &[2], 1);
    }
    comparison.end_group("boards, 1 colour: to 2 x 2, every set; full and every point");
    for sides in [[1, 1], [2, 1], [1, 2]] {
        boards(comparison, sides, true, &SETS[..8], &[2, 4], 1);
    }
    comparison.end_group("boards, 2 colours: to 2 x 1 and 1 x 2, every set; full and every point");
    boards(comparison, [2, 2], true, &[7, 1, 2, 4], &[2, 4], 0);
    comparison.end_group("boards, 2 colours: 2 x 2, cells open or known, blocks that fit; full and every point");
}

pub fn compare(comparison: &mut Comparison) {
    compare_blocks(comparison);
    compare_clues(comparison);
    compare_lines(comparison);
    compare_boards(comparison);
}
