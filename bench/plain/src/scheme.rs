//! The scheme that both programs judge: dense pseudo-random columns.

use crate::residue::PRIME;

pub const UNKNOWNS: usize = 96;

pub const COLUMNS: usize = 192;

/// The last so many columns repeat the first ones, so that they are redundant.
const REPEATED: usize = 32;

/// A linear congruential generator.
struct Numbers(u32);

impl Numbers {
    fn next(&mut self) -> u16 {
        self.0 = self.0.wrapping_mul(1664525).wrapping_add(1013904223);
        ((self.0 >> 16) % PRIME as u32) as u16
    }
}

/// The columns, one after another, and their targets.
pub struct Scheme {
    pub columns: Vec<u16>,
    pub targets: Vec<u16>,
}

impl Scheme {
    pub fn new() -> Scheme {
        let columns = drawn(1, UNKNOWNS);
        let targets = drawn(2, 1);
        Scheme { columns, targets }
    }
}

/// A run of so many numbers for each column, drawn from a seed.
fn drawn(seed: u32, each: usize) -> Vec<u16> {
    let mut run = Vec::with_capacity(COLUMNS * each);
    for columns in [COLUMNS - REPEATED, REPEATED] {
        let mut numbers = Numbers(seed);
        run.extend((0..columns * each).map(|_| numbers.next()));
    }
    run
}
