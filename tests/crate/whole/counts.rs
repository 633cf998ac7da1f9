//! A table of what is compared, a line each: how often, and how often it was different. The first differences are kept in full.
use crate::summary::Line;
use std::ops::Range;

const SHOWN: usize = 20;

pub struct Counts<const N: usize> {
    names: [&'static str; N],
    compared: [u64; N],
    different: [u64; N],
    /// The number of the case at hand, which tells the first differences of several threads.
    pub case: u64,
    shown: Vec<(u64, String)>,
}

impl<const N: usize> Counts<N> {
    pub fn new(names: [&'static str; N]) -> Counts<N> {
        Counts { names, compared: [0; N], different: [0; N], case: 0, shown: Vec::new() }
    }

    pub fn add(&mut self, line: usize, equal: bool, what: impl FnOnce() -> String) {
        self.compared[line] += 1;
        self.different[line] += !equal as u64;
        if !equal && self.shown.len() < SHOWN {
            self.shown.push((self.case, format!("DIFFERENT, {}: {}", self.names[line], what())));
        }
    }

    /// The counts of another thread.
    pub fn merge(&mut self, other: Counts<N>) {
        for line in 0..N {
            self.compared[line] += other.compared[line];
            self.different[line] += other.different[line];
        }
        self.shown.extend(other.shown);
        self.shown.sort_by_key(|(case, _)| *case);
        self.shown.truncate(SHOWN);
    }

    pub fn print_differences(&self) {
        for (_, difference) in &self.shown {
            println!("{difference}");
        }
    }

    pub fn print(&self) {
        self.print_differences();
        println!("{:<24} {:>11} {:>11}", "from equal arguments", "compared", "different");
        for line in 0..N {
            println!("{:<24} {:>11} {:>11}", self.names[line], self.compared[line], self.different[line]);
        }
    }

    /// Several lines as one of the whole run's table.
    pub fn line(&self, what: &'static str, lines: Range<usize>) -> Line {
        Line::exact(what, self.compared[lines.clone()].iter().sum(), self.different[lines].iter().sum())
    }
}
