//! Rows on an edge of rounding: places at which an hour number is within 10^-13 of a half minute, so that the last bit of a sine can
//! move a printed time. No random row would ever meet one; here the longitude is worked out from the half minute.
use crate::day_draw::Settings;
use crate::draw::{Case, Draw};
use crate::plain::{half_minute, Plain, Verdict, NEAR};
use crate::row_numbers::{by_port, used};
use crate::summary::Line;

/// Longitudes on either side of the edge that are tried, one float after the other: more than last bits part the two sides by.
const STEPS: i64 = 40;

/// The case with its longitude moved, by less than a degree, so that the number is on a half minute. None if it does not get there, at a
/// date line or if the number has no time.
fn on_edge(c: &Case, settings: &Settings, number: usize) -> Option<Case> {
    let value = |c: &Case| by_port(c, settings)[number];
    let (mut c, edge) = (*c, half_minute(value(c)));
    for _ in 0..12 {
        // the sun goes west by 15 degrees an hour
        c.longitude += (value(&c) - edge) * 15.0;
    }
    let there = (value(&c) - edge).abs() <= NEAR && c.longitude.abs() < 180.0;
    there.then_some(c)
}

/// The rows around a place on an edge, up to the first that differs.
fn around(plain: &mut Plain, c: &Case, settings: &Settings, number: usize) {
    let edge = half_minute(by_port(c, settings)[number]);
    for step in (0..=STEPS).flat_map(|step| [step, -step]).skip(1) {
        let longitude = f64::from_bits(c.longitude.to_bits().wrapping_add_signed(step));
        let c = Case { longitude, ..*c };
        let near = (by_port(&c, settings)[number] - edge).abs() <= NEAR;
        if near && plain.row(&c, settings) != Verdict::Equal {
            return;
        }
    }
}

pub struct NearEdge {
    plain: Plain,
}

pub fn near_edge(seed: u64, places: u64) -> NearEdge {
    let (mut draw, mut plain, mut found) = (Draw(seed), Plain::default(), 0);
    while found < places {
        let (c, settings) = (draw.case(), draw.settings());
        let number = draw.below(13) as usize;
        if !used(&c, &settings, None)[number] {
            continue;
        }
        if let Some(c) = on_edge(&c, &settings, number) {
            around(&mut plain, &c, &settings, number);
            found += 1;
        }
    }
    NearEdge { plain }
}

impl NearEdge {
    pub fn print(&self) {
        self.plain.print();
    }

    pub fn lines(&self) -> Vec<Line> {
        vec![self.plain.line("rows within 10^-13 hour of a half minute")]
    }
}
