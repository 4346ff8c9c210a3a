//! The oracle driver: one request a line on standard input, one answer a line on standard output, in order. `answers.rs` documents
//! both. An empty line has no answer, and flushes those before it.
use std::{
    io::{self, BufRead, BufWriter, Write},
    panic,
};

use nonogrid as theirs;

mod answers;
mod trace;

fn main() {
    trace::install();
    panic::set_hook(Box::new(|_| {}));
    let mut out = BufWriter::new(io::stdout());
    for request in io::stdin().lock().lines() {
        let request = request.unwrap();
        if request.trim().is_empty() {
            out.flush().unwrap();
        } else {
            writeln!(out, "{}", answers::answer(&request)).unwrap();
        }
    }
}
