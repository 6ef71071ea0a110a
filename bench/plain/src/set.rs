//! A set of columns, packed as their factors L and U, and its offers.

use crate::residue::{difference, inverse, product, sum};

#[derive(Clone, Copy, PartialEq, Eq)]
pub enum Verdict {
    Taken,
    Redundant,
    Clash,
}

/// In which order a column is worked by the held ones.
#[derive(Clone, Copy)]
pub enum Order {
    /// Each row at once: less its sum of products.
    Rows,
    /// Each held column at once: its multiple less from all rows below.
    Columns,
}

pub struct Set {
    columns: Vec<u16>,
    targets: Vec<u16>,
    height: usize,
    pivots: Vec<usize>,
    order: Order,
}

impl Set {
    pub fn new(height: usize, order: Order) -> Set {
        Set {
            columns: Vec::with_capacity(height * height),
            targets: Vec::with_capacity(height),
            height,
            pivots: Vec::with_capacity(height),
            order,
        }
    }

    pub fn pivots(&self) -> &[usize] {
        &self.pivots
    }

    /// Works the column in the run, and says what it is. If it is a combination, the run becomes that.
    pub fn offer(&mut self, run: &mut [u16], target: u16) -> Verdict {
        for (k, offset) in self.pivots.iter().enumerate() {
            run.swap(k, k + offset);
        }
        match self.order {
            Order::Rows => self.work_rows(run),
            Order::Columns => self.work_columns(run),
        }
        match greatest(&run[self.pivots.len()..]) {
            Some(offset) => self.take(run, offset, target),
            None => self.account(run, target),
        }
    }

    fn work_rows(&self, run: &mut [u16]) {
        for i in 0..run.len() {
            let mut share = 0;
            for (column, x) in self.columns.chunks_exact(self.height).zip(&run[..i]) {
                share = sum(share, product(column[i], *x));
            }
            run[i] = difference(run[i], share);
        }
    }

    fn work_columns(&self, run: &mut [u16]) {
        for (k, column) in self.columns.chunks_exact(self.height).enumerate() {
            let x = run[k];
            subtract(&mut run[k + 1..], &column[k + 1..], x);
        }
    }

    fn take(&mut self, run: &mut [u16], offset: usize, target: u16) -> Verdict {
        let rank = self.pivots.len();
        for column in self.columns.chunks_exact_mut(self.height) {
            column.swap(rank, rank + offset);
        }
        run.swap(rank, rank + offset);
        let factor = inverse(run[rank]);
        for x in &mut run[rank + 1..] {
            *x = product(*x, factor);
        }
        self.columns.extend_from_slice(run);
        self.targets.push(target);
        self.pivots.push(offset);
        Verdict::Taken
    }

    fn account(&self, run: &mut [u16], target: u16) -> Verdict {
        self.combine(run);
        let mut value = 0;
        for (x, y) in self.targets.iter().zip(run) {
            value = sum(value, product(*x, *y));
        }
        if value == target {
            Verdict::Redundant
        } else {
            Verdict::Clash
        }
    }

    /// Back substitution by U.
    fn combine(&self, run: &mut [u16]) {
        for (n, column) in self.columns.chunks_exact(self.height).enumerate().rev() {
            let x = product(inverse(column[n]), run[n]);
            subtract(&mut run[..n], &column[..n], x);
            run[n] = x;
        }
    }
}

/// Subtracts a multiple of a column from a run.
fn subtract(run: &mut [u16], column: &[u16], x: u16) {
    for (entry, factor) in run.iter_mut().zip(column) {
        *entry = difference(*entry, product(*factor, x));
    }
}

/// The place of the largest entry that is not zero, the first among equals.
fn greatest(rest: &[u16]) -> Option<usize> {
    let mut best = None;
    let mut top = 0;
    for (i, x) in rest.iter().enumerate() {
        if *x > top {
            top = *x;
            best = Some(i);
        }
    }
    best
}
