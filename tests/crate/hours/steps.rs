//! `setting_hour` and the season: from equal arguments the crate's results and the port's must be equal.
use crate::counts::Counts;
use crate::draw::Draw;
use crate::summary::Line;
use chrono::{DateTime, TimeZone, Utc};
use salah_plain::astronomy::ops;
use salah_plain::astronomy::solar::access::setting_hour;
use salah_plain::models::shafaq::Shafaq;

#[repr(C)]
struct ProbeTime {
    found: bool,
    seconds: i32,
}

// The library is linked with salah_probes.
#[rustfmt::skip]
extern "C" {
    fn probe_solar_hour(carry: u32, value: f64) -> ProbeTime;
    fn probe_days_since_solstice(day: u32, year: u32, latitude: f64) -> u32;
    fn probe_morning_twilight(latitude: f64, day: u32, year: u32, sunrise: i64) -> i64;
    fn probe_evening_twilight(latitude: f64, day: u32, year: u32, sunset: i64, shafaq: u32) -> i64;
}

fn time(seconds: i64) -> DateTime<Utc> {
    Utc.timestamp_opt(seconds, 0).unwrap()
}

const LINES: [&str; 4] = ["setting_hour", "days_since_solstice", "morning twilight", "evening twilight"];

/// Seconds from 0h of the date; none if there is no time.
pub fn port_setting_hour(value: f64) -> Option<i64> {
    let time = unsafe { probe_solar_hour(0, value) };
    if time.found { Some(time.seconds as i64) } else { None }
}

pub struct Steps(Counts<{ LINES.len() }>);

impl Steps {
    fn setting_hour(&mut self, draw: &mut Draw) {
        let (value, day) = (draw.hour_number(), draw.day_number());
        let ours = port_setting_hour(value).map(|seconds| day as i64 * 86400 + seconds);
        let theirs = setting_hour(value, day);
        self.0.add(0, ours == theirs, || format!("setting_hour {value:e} on day {day}: {ours:?}, the crate's {theirs:?}"));
    }

    fn season(&mut self, draw: &mut Draw) {
        let (latitude, year, ordinal, seconds) = (draw.any_latitude(), draw.year(), draw.ordinal(), draw.instant());
        let (ours, theirs) =
            (unsafe { probe_days_since_solstice(ordinal, year, latitude) }, ops::days_since_solstice(ordinal, year, latitude));
        self.0.add(1, ours == theirs, || format!("solstice {ordinal} of {year} at {latitude}: {ours}, the crate's {theirs}"));

        let ours = unsafe { probe_morning_twilight(latitude, ordinal, year, seconds) };
        let theirs = ops::season_adjusted_morning_twilight(latitude, ordinal, year, time(seconds)).timestamp();
        self.0.add(2, ours == theirs, || format!("morning {ordinal} of {year} at {latitude}: {ours}, the crate's {theirs}"));

        for (number, shafaq) in [Shafaq::General, Shafaq::Ahmer, Shafaq::Abyad].into_iter().enumerate() {
            let ours = unsafe { probe_evening_twilight(latitude, ordinal, year, seconds, number as u32) };
            let theirs = ops::season_adjusted_evening_twilight(latitude, ordinal, year, time(seconds), shafaq).timestamp();
            self.0.add(3, ours == theirs, || format!("evening {number} {ordinal} of {year} at {latitude}: {ours}, the crate's {theirs}"));
        }
    }

    pub fn print_differences(&self) {
        self.0.print_differences();
    }

    pub fn print(&self) {
        self.0.print();
    }

    pub fn lines(&self) -> Vec<Line> {
        vec![self.0.line("setting_hour", 0..1), self.0.line("season: days and twilights", 1..4)]
    }
}

pub fn steps(seed: u64, cases: u64) -> Steps {
    let (mut draw, mut steps) = (Draw(seed), Steps(Counts::new(LINES)));
    for _ in 0..cases {
        steps.setting_hour(&mut draw);
        steps.season(&mut draw);
    }
    steps
}
