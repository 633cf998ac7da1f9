//! Hour numbers: the port's against those of the crate as it is and of its copy on our functions.
use crate::draw::{Case, Draw};
use crate::numbers::{by_probes, by_plain, by_port};
use crate::summary::Line;
use crate::tally::Tally;
use crate::zones::zones;
use salah_probes::astronomy::solar::access::Day as ProbesDay;
use salah_plain::astronomy::solar::access::Day;

pub struct Hours {
    pairs: u64,
    tally: Tally,
    /// Times by access.rs that are not the crate's own.
    strayed: u64,
}

pub fn hours(seed: u64, pairs: u64, print_zones: bool) -> Hours {
    let mut draw = Draw(seed);
    let mut hours = Hours { pairs, tally: Tally::new(print_zones), strayed: 0 };
    for _ in 0..pairs {
        let c = draw.case();
        let day = Day::new(c.year, c.month, c.day, c.latitude, c.longitude);
        let on_probes = ProbesDay::new(c.year, c.month, c.day, c.latitude, c.longitude);
        let port = by_port(&c);
        hours.tally.plain(&c, port, by_plain(&c, &day), zones(&c, &day, 1.0));
        hours.tally.on_probes(&c, port, by_probes(&c, &on_probes));
        hours.strayed += !day.is_the_crates(c.fajr, c.isha, 1.0) as u64;
        hours.strayed += !day.is_the_crates(c.fajr, c.isha, 2.0) as u64;
    }
    hours
}

impl Hours {
    pub fn print(&self) {
        self.tally.print(self.pairs);
    }

    pub fn lines(&self) -> Vec<Line> {
        let mut lines = self.tally.lines(self.pairs);
        lines.push(Line::exact("access.rs against the crate's own times", 2 * self.pairs, self.strayed));
        lines
    }
}

/// Prints the list for replay. Zones are taken twice as wide, so that no value is on a zone's edge.
pub fn list(seed: u64, lines: u64) {
    let mut draw = Draw(seed);
    for _ in 0..lines {
        let drawn = draw.case();
        let c = Case { isha: drawn.fajr, ..drawn };
        let day = Day::new(c.year, c.month, c.day, c.latitude, c.longitude);
        let (values, zones) = (by_plain(&c, &day), zones(&c, &day, 2.0));
        print!("{:04}{:02}{:02}", c.year, c.month, c.day);
        for input in [c.latitude, c.longitude, c.fajr] {
            print!(" {:016x}", input.to_bits());
        }
        for value in 0..6 {
            let bits = match (zones[value].contains(&true), values[value].is_nan()) {
                (true, _) => 0x7ff8000000000001,
                (false, true) => 0x7ff8000000000000,
                (false, false) => values[value].to_bits(),
            };
            print!(" {bits:016x}");
        }
        println!();
    }
}
