//! The port held against the crate, request by request; what differs is shrunk and shown.
use std::{
    collections::{BTreeMap, HashSet},
    time::{Duration, Instant},
};

use crate::{
    drawing::Random,
    inks::{has_several_inks, in_black_and_white, read_stretches},
    judge::judge,
    ours::Port,
    request::{Call, Request},
    shrink::{shrink, Candidate},
    stable, untouched,
};

/// So many differences of a group are shown.
const SHOWN: usize = 3;
/// How far it is, is told on standard error after this time; it is looked at after so many comparisons.
const PATIENCE: Duration = Duration::from_secs(15);
const LOOKED: u64 = 1024;

#[derive(Default)]
struct Counts {
    comparisons: u64,
    done: u64,
    unsolvable: u64,
    refused: BTreeMap<u32, u64>,
    /// The calls and the numbers that they were refused with.
    refusals: HashSet<(Call, bool, u32)>,
    /// Clues of several inks.
    inked: u64,
    differ: u64,
}

pub struct Comparison {
    port: Port,
    random: Random,
    group: Counts,
    all: Counts,
    started: Instant,
    told: Instant,
}

/// What the port has to answer: what the crate does or, at a refusal by checking, what the documents say. A run is held to both copies of the
/// crate. Clues of several inks are held to a reading of the documents, and to what the crate answers for the picture in black and white.
#[derive(Default)]
struct Expected {
    whole: String,
    untouched: Option<String>,
    reading: Option<String>,
}

/// The end of an answer: the numbers of so many cells.
fn board(answer: &str, cells: usize) -> &str {
    let blank = answer.rmatch_indices(' ').nth(cells - 1);
    blank.map_or(answer, |(at, _)| &answer[at..])
}

fn number(answer: &str) -> &str {
    answer.split(' ').next().unwrap_or_default()
}

/// The board on which the crate ends a run; none if it is refused.
pub fn end_board(request: &Request) -> Option<Vec<u32>> {
    let answer = stable::answers::answer(&request.to_string());
    let cells = board(&answer, request.cells.len()).split_whitespace();
    (number(&answer) == "0").then(|| cells.map(|word| word.parse().expect("a cell")).collect())
}

/// The picture on which the crate ends a run; none if it is refused, or leaves cells open, or if this is no run.
fn end_picture(request: &Request) -> Option<Vec<u32>> {
    let cells = if request.is_run() { end_board(request)? } else { vec![0] };
    cells.iter().all(|cell| cell.count_ones() == 1).then_some(cells)
}

impl Expected {
    fn new(request: &Request) -> Expected {
        let none = Expected::default();
        let refusal = judge(request);
        if refusal != 0 {
            return Expected { whole: refusal.to_string(), ..none };
        }
        if has_several_inks(request) {
            let text = in_black_and_white(request).to_string();
            let reading = Some(read_stretches(request));
            return Expected { whole: untouched::answers::answer(&text), reading, ..none };
        }
        let text = request.to_string();
        if request.is_run() {
            let untouched = Some(untouched::answers::answer(&text));
            Expected { whole: stable::answers::answer(&text), untouched, ..none }
        } else {
            Expected { whole: untouched::answers::answer(&text), ..none }
        }
    }

    /// The whole answer is the one expected, by the reading too; the untouched crate has the same number and, with 0, the same board.
    fn is_met(&self, request: &Request, answer: &str) -> bool {
        let untouched = self.untouched.as_ref().map_or(true, |theirs| {
            number(theirs) == number(answer)
                && (number(answer) == "8" || board(theirs, request.cells.len()) == board(answer, request.cells.len()))
        });
        self.whole == answer && untouched && self.reading.as_ref().map_or(true, |reading| reading == answer)
    }
}

impl Comparison {
    pub fn new(seed: u64) -> Comparison {
        Comparison {
            port: Port::new(seed),
            random: Random(seed),
            group: Counts::default(),
            all: Counts::default(),
            started: Instant::now(),
            told: Instant::now(),
        }
    }

    /// Gives a request the least room, and a little more where a list may have it.
    pub fn give_room(&mut self, request: &mut Request) {
        request.room = request.least_room();
        let exact = request.call == Call::Line;
        for (list, room) in request.room.words.iter_mut().enumerate() {
            if !(exact && list == 0) {
                *room += self.random.below(4);
            }
        }
        for room in request.room.wides.iter_mut().chain([&mut request.room.memo]) {
            *room += self.random.below(4);
        }
    }

    /// A request with enough room: one that is answered with 0 or 8.
    pub fn hold(&mut self, request: &mut Request) {
        self.give_room(request);
        self.hold_as_it_is(request);
    }

    pub fn hold_as_it_is(&mut self, request: &Request) {
        let expected = Expected::new(request);
        let answer = self.port.answer(request);
        self.count(request, &expected);
        if !expected.is_met(request, &answer) {
            self.group.differ += 1;
            if self.group.differ as usize <= SHOWN {
                self.show(request);
            }
        }
    }

    fn count(&mut self, request: &Request, expected: &Expected) {
        self.group.comparisons += 1;
        self.group.inked += u64::from(expected.reading.is_some());
        let compared = self.all.comparisons + self.group.comparisons;
        if compared % LOOKED == 0 && self.told.elapsed() > PATIENCE {
            eprintln!("{compared} comparisons so far");
            self.told = Instant::now();
        }
        match number(&expected.whole).parse() {
            Ok(0) => self.group.done += 1,
            Ok(8) => self.group.unsolvable += 1,
            Ok(number) => {
                *self.group.refused.entry(number).or_default() += 1;
                self.group.refusals.insert((request.call, request.coloured, number));
            }
            Err(_) => {}
        }
    }

    /// Shows a request that makes a difference: one that stays in the domain as small as it gets, any other as it is.
    fn show(&mut self, request: &Request) {
        if judge(request) != 0 {
            println!("DIFFERS: {request:?}");
            return self.show_answers(request);
        }
        let whole = Candidate { request: request.clone(), picture: end_picture(request) };
        let small = shrink(whole, |request| {
            self.give_room(request);
            let expected = Expected::new(request);
            judge(request) == 0 && (0..3).any(|_| !expected.is_met(request, &self.port.answer(request)))
        });
        println!("DIFFERS: {small}");
        println!("  with room {:?}", small.room);
        self.show_answers(&small);
    }

    fn show_answers(&mut self, request: &Request) {
        let Expected { whole, untouched, reading } = Expected::new(request);
        println!("  expected:  {whole}");
        if let Some(theirs) = untouched {
            println!("  untouched: {theirs}");
        }
        if let Some(reading) = reading {
            println!("  reading:   {reading}; the crate was asked in black and white");
        }
        println!("  the port:  {}", self.port.answer(request));
    }

    /// Tells what the group has compared, and begins the next.
    pub fn end_group(&mut self, name: &str) {
        let Counts { comparisons, done, unsolvable, refused, refusals, inked, differ } =
            std::mem::take(&mut self.group);
        let seconds = self.started.elapsed().as_secs();
        println!(
            "{name}: {comparisons} comparisons, {done} done, {unsolvable} unsolvable, {differ} differ; {seconds} s"
        );
        if !refused.is_empty() {
            let numbers: Vec<String> = refused.iter().map(|(number, times)| format!("{times} with {number}")).collect();
            println!("  refused: {}; {} pairs of a call and a number", numbers.join(", "), refusals.len());
        }
        if inked > 0 {
            println!("  of several inks: {inked}");
        }
        self.started = Instant::now();
        self.all.comparisons += comparisons;
        self.all.differ += differ;
        self.all.inked += inked;
        for (number, times) in refused {
            *self.all.refused.entry(number).or_default() += times;
        }
    }

    /// The last lines, and whether nothing differs.
    pub fn end(&self) -> bool {
        let Counts { comparisons, refused, inked, differ, .. } = &self.all;
        let refused: u64 = refused.values().sum();
        println!("{} with the crate's own answer", comparisons - refused - inked);
        println!("{inked} of several inks, with the reading's answer and the crate's in black and white");
        println!("{refused} refused by checking, with the documents' number");
        println!("{comparisons} comparisons, {differ} differ");
        *differ == 0
    }
}
