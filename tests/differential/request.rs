//! A request: a call with what it is given. It goes to the crate as a line of the oracle's, and to the port as lists.
use std::fmt;

use crate::drawing::Clues;

#[derive(Clone, Copy, Debug, Default, Eq, Hash, PartialEq)]
pub enum Call {
    #[default]
    Sums,
    Starts,
    Positions,
    Ranges,
    Description,
    LineClue,
    GridClues,
    Line,
    FullRun,
    PointRun,
}

/// The room of what is lent for writing: lists of words (a run's grid is first, and has no room of its own), of wide words, and a memo.
#[derive(Clone, Debug, Default, PartialEq)]
pub struct Room {
    pub words: [usize; 6],
    pub wides: [usize; 2],
    pub memo: usize,
}

/// The blocks of a line, or of a call on blocks, are the rows' with one count. A length is the width. Binary blocks have no colours.
#[derive(Clone, Debug, Default)]
pub struct Request {
    pub call: Call,
    pub coloured: bool,
    pub width: usize,
    pub height: usize,
    pub x: usize,
    pub y: usize,
    pub blank: u32,
    pub cells: Vec<u32>,
    pub rows: Clues,
    pub columns: Clues,
    pub room: Room,
}

impl Request {
    pub fn on_blocks(call: Call, coloured: bool, width: usize, sizes: &[u32], colours: &[u32]) -> Request {
        Request { call, coloured, width, height: 1, rows: one_line(coloured, sizes, colours), ..Request::default() }
    }

    pub fn on_line(coloured: bool, cells: Vec<u32>, sizes: &[u32], colours: &[u32]) -> Request {
        Request { width: cells.len(), cells, ..Request::on_blocks(Call::Line, coloured, 0, sizes, colours) }
    }

    /// The clue of a line of codes where there is but one row, and the clues of a grid otherwise.
    pub fn on_picture(call: Call, coloured: bool, width: usize, blank: u32, cells: Vec<u32>) -> Request {
        Request { call, coloured, width, height: cells.len() / width, blank, cells, ..Request::default() }
    }

    /// A full run, or one from a point.
    pub fn on_board(coloured: bool, point: Option<(usize, usize)>, cells: Vec<u32>, clues: [Clues; 2]) -> Request {
        let (x, y) = point.unwrap_or_default();
        let mut request = Request {
            call: if point.is_some() { Call::PointRun } else { Call::FullRun },
            coloured,
            x,
            y,
            cells,
            ..Request::default()
        };
        request.set_clues(clues);
        request
    }

    /// Takes the clues of a board's rows and columns, as many as there are.
    pub fn set_clues(&mut self, [rows, columns]: [Clues; 2]) {
        (self.height, self.width) = (rows.counts.len(), columns.counts.len());
        (self.rows, self.columns) = (rows, columns);
        if !self.coloured {
            self.rows.colours.clear();
            self.columns.colours.clear();
        }
    }

    pub fn is_run(&self) -> bool {
        matches!(self.call, Call::FullRun | Call::PointRun)
    }

    /// The colours of the blocks of one direction: binary blocks are black.
    pub fn colours_of(&self, clues: &Clues) -> Vec<u32> {
        if self.coloured {
            clues.colours.clone()
        } else {
            vec![2; clues.sizes.len()]
        }
    }

    /// The sum over all cells of the number of their colours less one.
    pub fn room_number(&self) -> usize {
        let colours = |&cell: &u32| match (self.coloured, cell) {
            (true, _) => cell.count_ones() as usize,
            (false, 0) => 2,
            (false, _) => 1,
        };
        self.cells.iter().map(|cell| colours(cell).saturating_sub(1)).sum()
    }

    /// The least room that is enough.
    pub fn least_room(&self) -> Room {
        let blocks = self.rows.sizes.len();
        let cells = self.cells.len();
        let colours = |room: usize| if self.coloured { room } else { 0 };
        let (words, wides, memo) = match self.call {
            Call::Sums | Call::Starts => ([0; 6], [blocks, 0], 0),
            Call::Positions => ([0; 6], [0; 2], 0),
            Call::Ranges => ([blocks, 0, 0, 0, 0, 0], [blocks; 2], 0),
            Call::Description => ([blocks, colours(blocks), 0, 0, 0, 0], [0; 2], 0),
            Call::LineClue => ([cells, colours(cells), 0, 0, 0, 0], [0; 2], 0),
            Call::GridClues => {
                let words = [self.height, cells, colours(cells), self.width, cells, colours(cells)];
                (words, [0; 2], 0)
            }
            Call::Line => ([cells, 0, 0, 0, 0, 0], [0; 2], 4160),
            Call::FullRun | Call::PointRun => ([0, self.room_number(), 128, 0, 0, 0], [0; 2], 4160),
        };
        Room { words, wides, memo }
    }
}

fn one_line(coloured: bool, sizes: &[u32], colours: &[u32]) -> Clues {
    Clues {
        counts: vec![sizes.len() as u32],
        sizes: sizes.to_vec(),
        colours: if coloured { colours.to_vec() } else { vec![] },
    }
}

/// Appends numbers, each with a blank before it.
pub fn join(text: &mut impl fmt::Write, numbers: impl IntoIterator<Item = impl fmt::Display>) -> fmt::Result {
    numbers.into_iter().try_for_each(|number| write!(text, " {number}"))
}

/// As the oracle reads it: tests/oracle/answers.rs.
impl fmt::Display for Request {
    fn fmt(&self, f: &mut fmt::Formatter<'_>) -> fmt::Result {
        let letter = match self.call {
            Call::Sums => 's',
            Call::Starts => 'b',
            Call::Positions => 'p',
            Call::Ranges => 'v',
            Call::Description => 'd',
            Call::LineClue => 'c',
            Call::GridClues => 'g',
            Call::Line => 'l',
            Call::FullRun | Call::PointRun => 'r',
        };
        write!(f, "{letter}{}", if self.coloured { 'c' } else { 'b' })?;
        match self.call {
            Call::Positions | Call::Ranges | Call::Line => join(f, [self.width])?,
            Call::LineClue => join(f, [self.blank as usize, self.width])?,
            Call::GridClues => join(f, [self.blank as usize, self.width, self.height])?,
            Call::FullRun => write!(f, " f {} {}", self.width, self.height)?,
            Call::PointRun => write!(f, " p {} {} {} {}", self.x, self.y, self.width, self.height)?,
            Call::Sums | Call::Starts | Call::Description => {}
        }
        join(f, &self.cells)?;
        for clues in [&self.rows, &self.columns] {
            join(f, &clues.counts)?;
            join(f, &clues.sizes)?;
            join(f, &clues.colours)?;
        }
        Ok(())
    }
}
