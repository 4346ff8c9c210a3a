//! Scorepuddle for Rust: the calls of the device library, one safe function each. include/scorepuddle.h says what each one does.
//!
//! A list is lent as a slice. That the lists which a call writes overlap no other is what Rust's borrows say already, so nothing here
//! is unsafe to call. Build the library with `scripts/build.sh device` and a program with `rustc -L native=target/staticlib`.
#![allow(dead_code)]
#![allow(clippy::too_many_arguments)]

/// The number of each answer.
pub const DONE: u32 = 0;
pub const BAD_LENGTH: u32 = 1;
pub const BAD_ROOM: u32 = 2;
pub const TOO_MANY_BLOCKS: u32 = 3;
pub const BAD_BLOCK: u32 = 4;
pub const BAD_CELL: u32 = 5;
pub const OUTSIDE_GRID: u32 = 6;
pub const SHORT_REPORT: u32 = 7;
pub const UNSOLVABLE: u32 = 8;
pub const BAD_CODE: u32 = 9;
pub const NO_SPACE: u32 = 10;
pub const BAD_TEXT: u32 = 11;

/// What the working memory of a call needs.
pub const MEMO_BYTES: usize = 4160;
pub const STACK_ENTRIES: usize = 128;

/// The most bytes that `sp_write_pbm` writes.
pub const PBM_BYTES: usize = 4169;

/// `line_kind` of a run's answer.
pub const ROW: u32 = 0;
pub const COLUMN: u32 = 1;
pub const NO_LINE: u32 = 2;

/// What a run answers: with 8 the line that refused; with 0 and 8 the entries written to the report, and the lines solved.
#[repr(C)]
#[derive(Clone, Copy, Debug, PartialEq)]
pub struct RunAnswer {
    pub number: u32,
    pub line_kind: u32,
    pub line_index: usize,
    pub entries: usize,
    pub lines: usize,
}

/// With 0, how many entries of each list were written.
#[repr(C)]
#[derive(Clone, Copy, Debug, PartialEq)]
pub struct Count {
    pub number: u32,
    pub count: usize,
}

/// With 0, how many blocks were written for the rows and for the columns.
#[repr(C)]
#[derive(Clone, Copy, Debug, PartialEq)]
pub struct CluesAnswer {
    pub number: u32,
    pub rows: usize,
    pub columns: usize,
}

/// With 0, the sides of the picture that was read.
#[repr(C)]
#[derive(Clone, Copy, Debug, PartialEq)]
pub struct PbmAnswer {
    pub number: u32,
    pub width: usize,
    pub height: usize,
}

/// With 0, in how many places the blocks lie.
#[repr(C)]
#[derive(Clone, Copy, Debug, PartialEq)]
pub struct Positions {
    pub number: u32,
    pub positions: u64,
}

/// The clues of a card's rows, or of its columns: a count for each line, and all blocks, line after line.
#[derive(Clone, Copy, Debug)]
pub struct Clues<'a> {
    pub counts: &'a [u32],
    pub sizes: &'a [u32],
    pub colours: &'a [u32],
}

/// The clues of a binary card: all blocks are black, and the library is not told of `colours`.
pub type BlackClues<'a> = Clues<'a>;

#[link(name = "device", kind = "static")]
extern "C" {}

/// A safe function for each of the library's: a slice goes there as its pointer and its length, clues go as their lists.
macro_rules! calls {
    ($(fn $name:ident($($given:tt)*) -> $answer:ty;)*) => {
        $(calls!(@each $name, $answer, ($($given)*), ($($given)*), (), ());)*
    };
    (@each $name:ident, $answer:ty, $all:tt, ($list:ident: &mut [$entry:ty] $(, $($rest:tt)*)?), ($($raw:tt)*), ($($passed:tt)*)) => {
        calls!(@each $name, $answer, $all, ($($($rest)*)?),
            ($($raw)* _: *mut $entry, _: usize,), ($($passed)* $list.as_mut_ptr(), $list.len(),));
    };
    (@each $name:ident, $answer:ty, $all:tt, ($list:ident: &[$entry:ty] $(, $($rest:tt)*)?), ($($raw:tt)*), ($($passed:tt)*)) => {
        calls!(@each $name, $answer, $all, ($($($rest)*)?),
            ($($raw)* _: *const $entry, _: usize,), ($($passed)* $list.as_ptr(), $list.len(),));
    };
    (@each $name:ident, $answer:ty, $all:tt, ($clues:ident: Clues $(, $($rest:tt)*)?), ($($raw:tt)*), ($($passed:tt)*)) => {
        calls!(@each $name, $answer, $all, ($($($rest)*)?),
            ($($raw)* _: *const u32, _: usize, _: *const u32, _: usize, _: *const u32, _: usize,),
            ($($passed)* $clues.counts.as_ptr(), $clues.counts.len(), $clues.sizes.as_ptr(), $clues.sizes.len(),
                $clues.colours.as_ptr(), $clues.colours.len(),));
    };
    (@each $name:ident, $answer:ty, $all:tt, ($clues:ident: BlackClues $(, $($rest:tt)*)?), ($($raw:tt)*), ($($passed:tt)*)) => {
        calls!(@each $name, $answer, $all, ($($($rest)*)?),
            ($($raw)* _: *const u32, _: usize, _: *const u32, _: usize,),
            ($($passed)* $clues.counts.as_ptr(), $clues.counts.len(), $clues.sizes.as_ptr(), $clues.sizes.len(),));
    };
    (@each $name:ident, $answer:ty, $all:tt, ($value:ident: $kind:ty $(, $($rest:tt)*)?), ($($raw:tt)*), ($($passed:tt)*)) => {
        calls!(@each $name, $answer, $all, ($($($rest)*)?), ($($raw)* _: $kind,), ($($passed)* $value,));
    };
    (@each $name:ident, $answer:ty, ($($all:tt)*), (), ($($raw:tt)*), ($($passed:tt)*)) => {
        pub fn $name($($all)*) -> $answer {
            extern "C" {
                fn $name($($raw)*) -> $answer;
            }
            unsafe { $name($($passed)*) }
        }
    };
}

// One line solved.
calls! {
    fn sp_solve_line(cells: &[u32], sizes: &[u32], colours: &[u32], memo: &mut [u8], out: &mut [u32]) -> u32;
    fn sp_solve_binary_line(cells: &[u32], sizes: &[u32], memo: &mut [u8], out: &mut [u32]) -> u32;
}

// Runs, full and from a point.
calls! {
    fn sp_run(
        width: usize, height: usize, grid: &mut [u32], rows: Clues, columns: Clues,
        report: &mut [u32], memo: &mut [u8], stack: &mut [u32]
    ) -> RunAnswer;
    fn sp_run_point(
        width: usize, height: usize, x: usize, y: usize, grid: &mut [u32], rows: Clues, columns: Clues,
        report: &mut [u32], memo: &mut [u8], stack: &mut [u32]
    ) -> RunAnswer;
    fn sp_run_binary(
        width: usize, height: usize, grid: &mut [u32], rows: BlackClues, columns: BlackClues,
        report: &mut [u32], memo: &mut [u8], stack: &mut [u32]
    ) -> RunAnswer;
    fn sp_run_binary_point(
        width: usize, height: usize, x: usize, y: usize, grid: &mut [u32], rows: BlackClues, columns: BlackClues,
        report: &mut [u32], memo: &mut [u8], stack: &mut [u32]
    ) -> RunAnswer;
}

// Clues of pictures.
calls! {
    fn sp_clue(codes: &[u32], blank: u32, sizes: &mut [u32], colours: &mut [u32]) -> Count;
    fn sp_binary_clue(codes: &[u32], blank: u32, sizes: &mut [u32]) -> Count;
    fn sp_clues(
        width: usize, height: usize, codes: &[u32], blank: u32,
        row_counts: &mut [u32], row_sizes: &mut [u32], row_colours: &mut [u32],
        column_counts: &mut [u32], column_sizes: &mut [u32], column_colours: &mut [u32]
    ) -> CluesAnswer;
    fn sp_binary_clues(
        width: usize, height: usize, codes: &[u32], blank: u32,
        row_counts: &mut [u32], row_sizes: &mut [u32], column_counts: &mut [u32], column_sizes: &mut [u32]
    ) -> CluesAnswer;
}

// Pictures as text.
calls! {
    fn sp_read_pbm(text: &[u8], codes: &mut [u32]) -> PbmAnswer;
    fn sp_write_pbm(width: usize, height: usize, codes: &[u32], text: &mut [u8]) -> Count;
}

// A line's blocks.
calls! {
    fn sp_partial_sums(sizes: &[u32], colours: &[u32], sums: &mut [u64]) -> Count;
    fn sp_binary_partial_sums(sizes: &[u32], sums: &mut [u64]) -> Count;
    fn sp_block_starts(sizes: &[u32], colours: &[u32], starts: &mut [u64]) -> Count;
    fn sp_binary_block_starts(sizes: &[u32], starts: &mut [u64]) -> Count;
    fn sp_color_ranges(
        length: usize, sizes: &[u32], colours: &[u32],
        out_colours: &mut [u32], out_from: &mut [u64], out_to: &mut [u64]
    ) -> Count;
    fn sp_description(sizes: &[u32], colours: &[u32], out_sizes: &mut [u32], out_colours: &mut [u32]) -> Count;
    fn sp_binary_description(sizes: &[u32], out_sizes: &mut [u32]) -> Count;
    fn sp_positions_number(length: usize, sizes: &[u32], colours: &[u32]) -> Positions;
    fn sp_binary_positions_number(length: usize, sizes: &[u32]) -> Positions;
}
