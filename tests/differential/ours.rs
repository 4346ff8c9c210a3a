//! The port's answers: each call on dirty memory, what it tells as the oracle would write it, and whether the rest of the memory stayed.
use std::fmt;

use crate::{
    lent::{Dirt, Lent},
    request::{join, Call, Request},
    scorepuddle::*,
};

/// What a call of the port tells.
#[derive(Clone, Copy)]
enum Told {
    Line(u32),
    Count(Count),
    Positions(Positions),
    Clues(CluesAnswer),
    Run(RunAnswer),
}

impl Told {
    /// The number, and the other fields.
    fn fields(self) -> (u32, Vec<u64>) {
        match self {
            Told::Line(number) => (number, vec![]),
            Told::Count(a) => (a.number, vec![a.count as u64]),
            Told::Positions(a) => (a.number, vec![a.positions]),
            Told::Clues(a) => (a.number, vec![a.rows as u64, a.columns as u64]),
            Told::Run(a) => {
                let fields = [a.line_kind as usize, a.line_index, a.entries, a.lines];
                (a.number, fields.map(|field| field as u64).to_vec())
            }
        }
    }
}

fn all_kept<T: Copy + PartialEq>(lists: &[Lent<T>], written: &[usize]) -> bool {
    let mut lists = lists.iter().zip(written);
    lists.all(|(lent, &written)| lent.is_kept_after(written))
}

/// What is lent to one call.
struct Lists<'a> {
    cells: &'a [u32],
    rows: Clues<'a>,
    columns: Clues<'a>,
    words: [&'a mut [u32]; 6],
    wides: [&'a mut [u64]; 2],
    memo: &'a mut [u8],
}

fn call_on_blocks(request: &Request, lists: Lists) -> Told {
    let (length, Clues { sizes, colours, .. }) = (request.width, lists.rows);
    let ([out, out_colours, ..], [wide, to]) = (lists.words, lists.wides);
    match (request.call, request.coloured) {
        (Call::Sums, true) => Told::Count(sp_partial_sums(sizes, colours, wide)),
        (Call::Sums, false) => Told::Count(sp_binary_partial_sums(sizes, wide)),
        (Call::Starts, true) => Told::Count(sp_block_starts(sizes, colours, wide)),
        (Call::Starts, false) => Told::Count(sp_binary_block_starts(sizes, wide)),
        (Call::Positions, true) => Told::Positions(sp_positions_number(length, sizes, colours)),
        (Call::Positions, false) => Told::Positions(sp_binary_positions_number(length, sizes)),
        (Call::Ranges, _) => Told::Count(sp_color_ranges(length, sizes, colours, out, wide, to)),
        (Call::Description, true) => Told::Count(sp_description(sizes, colours, out, out_colours)),
        (Call::Description, false) => Told::Count(sp_binary_description(sizes, out)),
        (_, true) => Told::Line(sp_solve_line(lists.cells, sizes, colours, lists.memo, out)),
        (_, false) => Told::Line(sp_solve_binary_line(lists.cells, sizes, lists.memo, out)),
    }
}

fn call_on_picture(request: &Request, lists: Lists) -> Told {
    let (width, height, codes, blank) = (request.width, request.height, lists.cells, request.blank);
    let [a, b, c, d, e, f] = lists.words;
    match (request.call, request.coloured) {
        (Call::LineClue, true) => Told::Count(sp_clue(codes, blank, a, b)),
        (Call::LineClue, false) => Told::Count(sp_binary_clue(codes, blank, a)),
        (_, true) => Told::Clues(sp_clues(width, height, codes, blank, a, b, c, d, e, f)),
        (_, false) => Told::Clues(sp_binary_clues(width, height, codes, blank, a, b, d, e)),
    }
}

fn call_run(request: &Request, lists: Lists) -> Told {
    let &Request { width: w, height: h, x, y, .. } = request;
    let Lists { rows, columns, memo, .. } = lists;
    let [grid, report, stack, ..] = lists.words;
    Told::Run(match (request.call, request.coloured) {
        (Call::FullRun, true) => sp_run(w, h, grid, rows, columns, report, memo, stack),
        (Call::FullRun, false) => sp_run_binary(w, h, grid, rows, columns, report, memo, stack),
        (_, true) => sp_run_point(w, h, x, y, grid, rows, columns, report, memo, stack),
        (_, false) => sp_run_binary_point(w, h, x, y, grid, rows, columns, report, memo, stack),
    })
}

/// The longest list: the report of a board of 64 by 64 whose cells have all 32 colours, with room to spare.
const MOST: usize = 64 * 64 * 31 + 1024;

/// All memory that a call may be lent.
pub struct Port {
    byte_dirt: Dirt<u8>,
    word_dirt: Dirt<u32>,
    wide_dirt: Dirt<u64>,
    read: [Lent<u32>; 7],
    words: [Lent<u32>; 6],
    wides: [Lent<u64>; 2],
    memo: Lent<u8>,
}

impl Port {
    pub fn new(seed: u64) -> Port {
        Port {
            byte_dirt: Dirt::new(seed, 8192, |number| number as u8),
            word_dirt: Dirt::new(seed, MOST, |number| number as u32),
            wide_dirt: Dirt::new(seed, 1024, |number| number),
            read: Default::default(),
            words: Default::default(),
            wides: Default::default(),
            memo: Lent::default(),
        }
    }

    /// The answer as the oracle would write it. One that is neither 0 nor 8 is the number, with the other fields unless they are all those of
    /// a refusal. `SPOILED` where memory that had to stay did not.
    pub fn answer(&mut self, request: &Request) -> String {
        self.lend(request);
        let told = self.call(request);
        if let Some(what) = self.find_spoiled(request, told) {
            return format!("SPOILED {what}");
        }
        let (number, fields) = told.fields();
        let mut text = number.to_string();
        let no_fields: &[u64] = if request.is_run() { &[2, 0, 0, 0] } else { &[0, 0] };
        if number == 0 || number == 8 {
            self.write_values(request, told, &mut text);
        } else if fields[..] != no_fields[..fields.len()] {
            join(&mut text, fields).unwrap();
        }
        text
    }

    fn lend(&mut self, request: &Request) {
        let [rows, columns] = [&request.rows, &request.columns];
        let clues = [rows, columns].map(|clues| [&clues.counts, &clues.sizes, &clues.colours]);
        let lists = [&request.cells].into_iter().chain(clues.concat());
        for (lent, list) in self.read.iter_mut().zip(lists) {
            lent.lend(&mut self.word_dirt, list);
        }
        for (lent, &room) in self.words.iter_mut().zip(&request.room.words) {
            lent.lend_room(&mut self.word_dirt, room);
        }
        for (lent, &room) in self.wides.iter_mut().zip(&request.room.wides) {
            lent.lend_room(&mut self.wide_dirt, room);
        }
        self.memo.lend_room(&mut self.byte_dirt, request.room.memo);
        if request.is_run() {
            self.words[0].lend(&mut self.word_dirt, &request.cells);
        }
    }

    fn call(&mut self, request: &Request) -> Told {
        let [cells, row_counts, row_sizes, row_colours, counts, sizes, colours] = &self.read;
        let [a, b, c, d, e, f] = &mut self.words;
        let [from, to] = &mut self.wides;
        let lists = Lists {
            cells: cells.list(),
            rows: Clues { counts: row_counts.list(), sizes: row_sizes.list(), colours: row_colours.list() },
            columns: Clues { counts: counts.list(), sizes: sizes.list(), colours: colours.list() },
            words: [a, b, c, d, e, f].map(|lent| lent.list_mut()),
            wides: [from, to].map(|lent| lent.list_mut()),
            memo: self.memo.list_mut(),
        };
        match request.call {
            Call::LineClue | Call::GridClues => call_on_picture(request, lists),
            Call::FullRun | Call::PointRun => call_run(request, lists),
            _ => call_on_blocks(request, lists),
        }
    }

    /// How many entries at the front of each list the call may have written, by what it tells.
    fn written(&self, request: &Request, told: Told) -> ([usize; 6], [usize; 2], usize) {
        let nothing = ([0; 6], [0; 2], 0);
        match told {
            Told::Line(0) => ([request.cells.len(), 0, 0, 0, 0, 0], [0; 2], usize::MAX),
            Told::Line(8) => ([0; 6], [0; 2], usize::MAX),
            Told::Count(Count { number: 0, count }) => ([count, count, 0, 0, 0, 0], [count; 2], 0),
            Told::Clues(CluesAnswer { number: 0, rows, columns }) => {
                ([request.height, rows, rows, request.width, columns, columns], [0; 2], 0)
            }
            Told::Run(a) if a.number == 0 || a.number == 8 => {
                ([request.cells.len(), a.entries, usize::MAX, 0, 0, 0], [0; 2], usize::MAX)
            }
            _ => nothing,
        }
    }

    /// A list has more entries by what is told than there is room for.
    fn is_overfull(&self, request: &Request, told: Told) -> bool {
        let words = |list: usize| self.words[list].list().len();
        match told {
            Told::Count(a) if matches!(request.call, Call::Sums | Call::Starts) => a.count > self.wides[0].list().len(),
            Told::Count(a) => a.count > words(0),
            Told::Clues(a) => a.rows > words(1) || a.columns > words(4),
            Told::Run(a) => a.entries > words(1),
            Told::Line(_) | Told::Positions(_) => false,
        }
    }

    fn find_spoiled(&self, request: &Request, told: Told) -> Option<&'static str> {
        let (words, wides, memo) = self.written(request, told);
        let kept = [
            ("a count above the room", !self.is_overfull(request, told)),
            ("a list that is read", self.read.iter().all(|lent| lent.is_kept_after(0))),
            ("a list of words", all_kept(&self.words, &words)),
            ("a list of wide words", all_kept(&self.wides, &wides)),
            ("the memo", self.memo.is_kept_after(memo)),
        ];
        kept.into_iter().find(|(_, kept)| !kept).map(|(what, _)| what)
    }

    /// The first so many entries of a list of words; all of them where it has fewer.
    fn front(&self, list: usize, count: usize) -> &[u32] {
        let entries = self.words[list].list();
        &entries[..count.min(entries.len())]
    }

    /// What follows the number.
    fn write_values(&self, request: &Request, told: Told, text: &mut String) {
        let wides = |list: usize, count: usize| self.wides[list].list().iter().take(count);
        match told {
            Told::Line(number) => join(text, self.front(0, if number == 0 { request.cells.len() } else { 0 })),
            Told::Positions(a) => join(text, [a.positions]),
            Told::Count(Count { count, .. }) => match request.call {
                Call::Ranges => {
                    let ranges = wides(0, count).zip(wides(1, count)).zip(self.front(0, count));
                    join(text, [count]).and_then(|_| {
                        ranges.into_iter().try_for_each(|((from, to), &colour)| join(text, [colour as u64, *from, *to]))
                    })
                }
                Call::Sums | Call::Starts => join(text, wides(0, count)),
                _ => self.write_blocks(request, 0, count, text),
            },
            Told::Clues(CluesAnswer { rows, columns, .. }) => join(text, self.front(0, request.height))
                .and_then(|_| self.write_blocks(request, 1, rows, text))
                .and_then(|_| join(text, self.front(3, request.width)))
                .and_then(|_| self.write_blocks(request, 4, columns, text)),
            Told::Run(answer) => self.write_run(answer, text),
        }
        .unwrap();
    }

    /// How many blocks, their sizes and, if coloured, their colours, which stand in the list after that of the sizes.
    fn write_blocks(&self, request: &Request, sizes: usize, count: usize, text: &mut String) -> fmt::Result {
        join(text, [count])?;
        join(text, self.front(sizes, count))?;
        join(text, self.front(sizes + 1, if request.coloured { count } else { 0 }))
    }

    fn write_run(&self, answer: RunAnswer, text: &mut String) -> fmt::Result {
        let kind = match (answer.number, answer.line_kind) {
            (8, ROW) => "r",
            (8, COLUMN) => "c",
            (0, NO_LINE) => "-",
            _ => "another kind of line than",
        };
        text.push_str(&format!(" {kind} {} {} {}", answer.line_index, answer.lines, answer.entries));
        join(text, self.front(1, answer.entries))?;
        join(text, self.words[0].list())
    }
}
