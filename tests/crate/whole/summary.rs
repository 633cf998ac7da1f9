//! The one table of a whole run: what was compared, how often, and what explains each difference.

/// A line of the table. Every comparison counts once, in the first column from `equal` on that holds.
pub struct Line {
    pub what: &'static str,
    pub compared: u64,
    /// Outside document 01's tolerance, but in one of its zones.
    pub in_zone: u64,
    /// A difference that docs/DIFFERENCES.md lists, and shown to be that one.
    pub listed: u64,
    pub unexplained: u64,
}

impl Line {
    /// A comparison in which nothing but equal is allowed.
    pub fn exact(what: &'static str, compared: u64, different: u64) -> Line {
        Line { what, compared, in_zone: 0, listed: 0, unexplained: different }
    }

    fn equal(&self) -> u64 {
        self.compared - self.in_zone - self.listed - self.unexplained
    }
}

pub fn unexplained(lines: &[Line]) -> u64 {
    lines.iter().map(|line| line.unexplained).sum()
}

pub fn print(lines: &[Line]) {
    let width = lines.iter().map(|line| line.what.len()).max().unwrap_or(0);
    println!("{:<width$} {:>11} {:>11} {:>9} {:>7} {:>11}", "what", "compared", "equal", "in a zone", "listed", "unexplained");
    for line in lines {
        let (equal, Line { what, compared, in_zone, listed, unexplained }) = (line.equal(), line);
        println!("{what:<width$} {compared:>11} {equal:>11} {in_zone:>9} {listed:>7} {unexplained:>11}");
    }
}
