//! Two calls timed by turns.
use std::hint::black_box;
use std::time::{Duration, Instant};

/// How many samples a median is taken of.
pub const SAMPLES: usize = 501;
/// How long a sample is at least: shorter than the time for which a busy machine lets others run, so
/// that most samples are taken without a break.
const SAMPLE: Duration = Duration::from_micros(500);

/// Prints a row: the median time of a call of each, their ratio, and the ratio of the least times, on
/// which other work on the machine tells least.
pub fn row<A, B>(what: &str, mut rust: impl FnMut() -> A, mut port: impl FnMut() -> B) {
    let (rust_turns, port_turns) = (turns(&mut rust), turns(&mut port));
    let (mut of_rust, mut of_port) = (Vec::new(), Vec::new());
    for sample in 0..SAMPLES {
        // Who goes first changes, so that neither always finds the other's caches.
        if sample % 2 == 0 {
            of_rust.push(per_call(&mut rust, rust_turns));
            of_port.push(per_call(&mut port, port_turns));
        } else {
            of_port.push(per_call(&mut port, port_turns));
            of_rust.push(per_call(&mut rust, rust_turns));
        }
    }
    of_rust.sort_by(f64::total_cmp);
    of_port.sort_by(f64::total_cmp);
    let ratio = |k: usize| of_port[k] / of_rust[k];
    let (rust, port) = (of_rust[SAMPLES / 2], of_port[SAMPLES / 2]);
    let (middle, least) = (ratio(SAMPLES / 2), ratio(0));
    println!("| {what} | {rust:.1} | {port:.1} | {middle:.2} | {least:.2} |");
}

/// The median time of a call, for a table without a second side.
pub fn median<A>(mut call: impl FnMut() -> A) -> f64 {
    let turns = turns(&mut call);
    let mut times: Vec<f64> = (0..SAMPLES).map(|_| per_call(&mut call, turns)).collect();
    times.sort_by(f64::total_cmp);
    times[SAMPLES / 2]
}

/// How many calls take as long as a sample; finding it warms up, too.
fn turns<A>(call: &mut impl FnMut() -> A) -> u32 {
    let mut turns = 1;
    while per_call(call, turns) * f64::from(turns) < SAMPLE.as_nanos() as f64 {
        turns *= 2;
    }
    turns
}

/// Nanoseconds.
fn per_call<A>(call: &mut impl FnMut() -> A, turns: u32) -> f64 {
    let start = Instant::now();
    for _ in 0..turns {
        black_box(call());
    }
    start.elapsed().as_nanos() as f64 / f64::from(turns)
}
