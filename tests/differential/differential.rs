//! The port held against the crate, which is here twice: untouched, and with its one unstable sort made stable.
//! Usage: differential [SEED] [SCALE]. Every small request, then requests at random from the seed, SCALE times as many as with 1.
use std::{env, process};

mod compare;
mod exhaustive;
mod inks;
mod judge;
mod lent;
mod ours;
mod random;
mod refusals;
mod request;
mod shrink;

#[path = "../drawing.rs"]
mod drawing;
#[path = "../../examples/rust/scorepuddle.rs"]
mod scorepuddle;
#[path = "../oracle/trace.rs"]
mod trace;

#[path = "../oracle"]
mod untouched {
    use super::trace;
    use nonogrid as theirs;
    pub mod answers;
}

#[path = "../oracle"]
mod stable {
    use super::trace;
    use nonogrid_stable as theirs;
    pub mod answers;
}

fn main() {
    let mut arguments = env::args().skip(1);
    let seed: u64 = arguments.next().map_or(7304, |word| word.parse().expect("a seed"));
    let scale: f64 = arguments.next().map_or(1.0, |word| word.parse().expect("a scale"));
    trace::install();
    let mut comparison = compare::Comparison::new(seed);
    println!("Every small request");
    exhaustive::compare(&mut comparison);
    println!("At random, seed {seed}, scale {scale}");
    random::compare(&mut comparison, seed + 1, scale);
    refusals::compare(&mut comparison, seed + 9, scale);
    process::exit(if comparison.end() { 0 } else { 1 });
}
