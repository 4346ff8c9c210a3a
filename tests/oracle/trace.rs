//! What a run did, read off the crate's own debug lines: the order of lines, the changed cells, and how many lines were solved.
use std::{cell::RefCell, fmt};

/// A row ('r') or a column ('c') with its index.
pub type Line = (char, usize);

#[derive(Default)]
pub struct Trace {
    on: bool,
    pub popped: Vec<Line>,
    pub changed: Vec<(Line, Vec<usize>)>,
    pub lines_solved: Option<u64>,
}

thread_local! { static TRACE: RefCell<Trace> = RefCell::new(Trace::default()); }

struct Capture;
static CAPTURE: Capture = Capture;

/// Has every debug line of the crate pass through here. Called once.
pub fn install() {
    log::set_logger(&CAPTURE).unwrap();
    log::set_max_level(log::LevelFilter::Debug);
}

/// Forgets what was seen, and records from now on.
pub fn start() {
    TRACE.with(|t| *t.borrow_mut() = Trace { on: true, ..Trace::default() });
}

/// Hands out what was seen since `start`, and records no more.
pub fn take() -> Trace {
    TRACE.with(|t| std::mem::take(&mut *t.borrow_mut()))
}

/// Reads `Row(3)` or `Column(3)` at the front of a text.
fn parse_line(s: &str) -> Option<(Line, &str)> {
    let (direction, rest) =
        if let Some(r) = s.strip_prefix("Row(") { ('r', r) } else { ('c', s.strip_prefix("Column(")?) };
    let end = rest.find(')')?;
    Some(((direction, rest[..end].parse().ok()?), &rest[end + 1..]))
}

impl Trace {
    fn record(&mut self, message: &str) {
        if let Some(text) = message.strip_prefix("Solving ") {
            // "Solving Row(3)" is the queue's pop; "Solving Row(3): ..." is update_line's.
            if let Some((line, "")) = parse_line(text) {
                self.popped.push(line);
            }
        } else if let Some(text) = message.strip_prefix("New info on ") {
            let (line, rest) = parse_line(text).expect("a line");
            let list = rest.strip_prefix(": [").unwrap().strip_suffix(']').unwrap();
            let list = list.split(", ").map(|x| x.parse().unwrap()).collect();
            self.changed.push((line, list));
        } else if let Some(text) = message.strip_prefix("Lines solved: ") {
            self.lines_solved = Some(text.parse().unwrap());
        }
    }
}

/// A message, taken up no further than it can be one that `record` reads: the others are long, and many.
#[derive(Default)]
struct Message(String);

impl fmt::Write for Message {
    fn write_str(&mut self, text: &str) -> fmt::Result {
        self.0.push_str(text);
        let starts = ["Solving ", "New info on ", "Lines solved: "];
        let known = starts.iter().any(|start| self.0.starts_with(start));
        let whole_line = self.0.starts_with(starts[0]) && self.0.ends_with(": ");
        if known && !whole_line {
            Ok(())
        } else {
            Err(fmt::Error)
        }
    }
}

impl log::Log for Capture {
    fn enabled(&self, _: &log::Metadata) -> bool {
        true
    }

    fn log(&self, r: &log::Record) {
        if !r.target().ends_with("propagation") {
            return;
        }
        TRACE.with(|t| {
            let mut t = t.borrow_mut();
            let mut message = Message::default();
            if t.on && fmt::write(&mut message, *r.args()).is_ok() {
                t.record(&message.0);
            }
        });
    }

    fn flush(&self) {}
}
