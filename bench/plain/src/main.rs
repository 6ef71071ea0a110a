//! Judges one scheme by offers, in plain Rust, and prints its times in microseconds.
//! The argument is how often (20 if left out).

mod residue;
mod scheme;
mod set;

use scheme::{Scheme, UNKNOWNS};
use set::{Order, Set, Verdict};
use std::hint::black_box;
use std::time::{Duration, Instant};

fn main() {
    let word = std::env::args().nth(1);
    let times = word.and_then(|word| word.parse().ok()).unwrap_or(20);
    let scheme = Scheme::new();
    show("by rows", &scheme, Order::Rows, times);
    show("by columns", &scheme, Order::Columns, times);
}

fn show(name: &str, scheme: &Scheme, order: Order, times: usize) {
    println!("plain {name}: {}", judge(scheme, order));
    let mut taken: Vec<Duration> = (0..times).map(|_| timed(scheme, order)).collect();
    taken.sort_unstable();
    if let (Some(best), Some(median)) = (taken.first(), taken.get(times / 2)) {
        let (best, median) = (best.as_micros(), median.as_micros());
        println!("plain {name}: best {best}, median {median}");
    }
}

fn timed(scheme: &Scheme, order: Order) -> Duration {
    let start = Instant::now();
    black_box(judge(black_box(scheme), order));
    start.elapsed()
}

/// Judges the scheme, and says how many columns are what, with the folded pivots.
fn judge(scheme: &Scheme, order: Order) -> String {
    let mut set = Set::new(UNKNOWNS, order);
    let mut verdicts = Vec::with_capacity(scheme.targets.len());
    let mut run = [0; UNKNOWNS];
    for (column, target) in scheme.columns.chunks_exact(UNKNOWNS).zip(&scheme.targets) {
        run.copy_from_slice(column);
        verdicts.push(set.offer(&mut run, *target));
    }
    let count = |verdict| verdicts.iter().filter(|v| **v == verdict).count();
    let taken = count(Verdict::Taken);
    let redundant = count(Verdict::Redundant);
    let clashes = count(Verdict::Clash);
    let pivots = folded(set.pivots());
    format!("{taken} taken, {redundant} redundant, {clashes} clashes, pivots {pivots}")
}

fn folded(pivots: &[usize]) -> usize {
    pivots.iter().fold(0, |sum: usize, pivot| {
        sum.wrapping_mul(97).wrapping_add(*pivot)
    })
}
