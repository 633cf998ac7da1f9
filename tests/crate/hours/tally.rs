//! Compares the port's hour numbers with the crate's, counts, and prints what breaks demand 2.
use crate::draw::Case;
use crate::numbers::VALUES;
use crate::summary::Line;
use crate::zones::ZONES;

/// An hour, by demand 2.
const TOLERANCE: f64 = 0.0001;

fn same_bits(a: f64, b: f64) -> bool {
    a.to_bits() == b.to_bits() || (a.is_nan() && b.is_nan())
}

/// Infinite if one is a number and the other is none, and between a NaN and an infinity.
fn difference(a: f64, b: f64) -> f64 {
    if same_bits(a, b) {
        0.0
    } else if a.is_finite() && b.is_finite() {
        (a - b).abs()
    } else {
        f64::INFINITY
    }
}

fn print_value(what: &str, c: &Case, value: usize, port: f64, by_crate: f64) {
    let Case { year, month, day, latitude, longitude, fajr, isha } = c;
    println!(
        "{what}: {year:04}-{month:02}-{day:02} latitude {latitude:?} longitude {longitude:?} Fajr {fajr:?} Isha {isha:?}: \
         {} port {port:?} crate {by_crate:?}",
        VALUES[value]
    );
}

/// One kind of hour number. All but the last two count it against the crate as it is and leave no value out.
#[derive(Default, Clone, Copy)]
struct Count {
    same: u64,
    within: u64,
    in_zone: u64,
    in_zone_over: u64,
    unexplained: u64,
    largest: f64,
    not_equal_on_probes: u64,
}

/// A value that is in two zones counts in both.
#[derive(Default, Clone, Copy)]
struct ZoneCount {
    values: u64,
    over: u64,
    largest: f64,
}

#[derive(Default)]
pub struct Tally {
    print_zones: bool,
    counts: [Count; 7],
    zones: [ZoneCount; 4],
    printed: u64,
}

impl Tally {
    pub fn new(print_zones: bool) -> Tally {
        Tally { print_zones, ..Tally::default() }
    }

    /// Against the crate as it is.
    pub fn plain(&mut self, c: &Case, port: [f64; 7], by_crate: [f64; 7], zones: [[bool; 4]; 7]) {
        for value in 0..7 {
            let apart = difference(port[value], by_crate[value]);
            for (zone, _) in zones[value].iter().enumerate().filter(|(_, inside)| **inside) {
                let zone = &mut self.zones[zone];
                zone.values += 1;
                zone.over += (apart > TOLERANCE) as u64;
                zone.largest = zone.largest.max(apart);
            }
            let count = &mut self.counts[value];
            if zones[value].contains(&true) {
                count.in_zone += 1;
                count.in_zone_over += (apart > TOLERANCE) as u64;
                if self.print_zones && apart > TOLERANCE {
                    print_value("in a zone", c, value, port[value], by_crate[value]);
                }
                continue;
            }
            count.largest = count.largest.max(apart);
            if same_bits(port[value], by_crate[value]) {
                count.same += 1;
            } else if apart <= TOLERANCE {
                count.within += 1;
            } else {
                count.unexplained += 1;
                print_value("UNEXPLAINED", c, value, port[value], by_crate[value]);
            }
        }
    }

    /// Against the crate on our functions; the first ten that are not equal are printed.
    pub fn on_probes(&mut self, c: &Case, port: [f64; 7], by_crate: [f64; 7]) {
        for value in 0..7 {
            if !same_bits(port[value], by_crate[value]) {
                self.counts[value].not_equal_on_probes += 1;
                self.printed += 1;
                if self.printed <= 10 {
                    print_value("NOT EQUAL on our functions", c, value, port[value], by_crate[value]);
                }
            }
        }
    }

    pub fn print(&self, pairs: u64) {
        println!("the port against the crate, tolerance {TOLERANCE} hour; a value in a zone is not judged");
        println!("value           compared  equal bits    within  in a zone  unexplained   largest");
        for (name, n) in VALUES.iter().zip(&self.counts) {
            let (within, in_zone, unexplained) = (n.within, n.in_zone, n.unexplained);
            println!("{name:<14}{pairs:>10}{:>12}{within:>10}{in_zone:>11}{unexplained:>13}{:>10.1e}", n.same, n.largest);
        }
        println!("\nzone                       values  of these over the tolerance   largest");
        for (name, n) in ZONES.iter().zip(&self.zones) {
            println!("{name:<23}{:>10}{:>29}{:>10.1e}", n.values, n.over, n.largest);
        }
        println!("\nthe port against the crate on our functions, zones included: bit for bit");
        println!("value           compared  equal bits   not equal");
        for (name, n) in VALUES.iter().zip(&self.counts) {
            println!("{name:<14}{pairs:>10}{:>12}{:>12}", pairs - n.not_equal_on_probes, n.not_equal_on_probes);
        }
    }

    /// A value in a zone counts there only if it is over the tolerance.
    pub fn lines(&self, pairs: u64) -> Vec<Line> {
        let sum = |of: fn(&Count) -> u64| self.counts.iter().map(of).sum();
        let compared = pairs * VALUES.len() as u64;
        vec![
            Line {
                what: "hour numbers as the crate is, within 0.0001",
                compared,
                in_zone: sum(|n| n.in_zone_over),
                listed: 0,
                unexplained: sum(|n| n.unexplained),
            },
            Line::exact("hour numbers on our fdlibm, bit for bit", compared, sum(|n| n.not_equal_on_probes)),
        ]
    }
}
