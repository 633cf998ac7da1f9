//! What the port answers, by the exports of crates/probes.
use crate::day_crate::Refusal;
use crate::day_draw::{DayCase, Instant, Settings, NONE};
use crate::draw::Case;
use crate::in_force::InForce;
use crate::order_draw::{date_value, written, Field};
use crate::order_port::{read_plainly, KatchidulOrder};
use crate::steps::port_setting_hour;
use chrono::Datelike;
use salah_given::given::Numbers;

#[derive(Clone, Copy)]
#[repr(C)]
struct ProbeNumbers(Numbers);

#[derive(Clone, Copy)]
#[repr(C)]
pub struct ProbeTimes(pub [i64; 9]);

#[repr(C)]
struct ProbeDay {
    number: u32,
    place: u32,
    times: ProbeTimes,
}

/// The rules by their numbers; 0 is the crate's.
#[derive(Debug, Clone, Copy, Default)]
#[repr(C)]
pub struct Rules {
    pub carry: u32,
    pub southern: u32,
}

#[repr(C)]
struct ProbeRemaining {
    found: bool,
    hours: u32,
    minutes: u32,
}

#[rustfmt::skip]
#[link(name = "probes", kind = "static")]
extern "C" {
    fn probe_day(numbers: ProbeNumbers, year: u32, month: u32, day: u32, latitude: f64, settings: Settings, rules: Rules) -> ProbeDay;
    fn probe_row(year: u32, month: u32, day: u32, latitude: f64, longitude: f64, settings: Settings, rules: Rules) -> ProbeDay;
    fn probe_current(times: ProbeTimes, seconds: i64, nanoseconds: u32) -> u32;
    fn probe_next(times: ProbeTimes, seconds: i64, nanoseconds: u32) -> u32;
    fn probe_remaining(times: ProbeTimes, seconds: i64, nanoseconds: u32) -> ProbeRemaining;
}

/// A method's own parameters: those of an order that sets nothing else.
pub fn preset(method: u32) -> Settings {
    let date = date_value(2026, 6, 21);
    let fields = [(1, b"A".as_slice()), (2, &date), (3, &[1]), (4, &[0; 8]), (5, &[0; 8]), (6, &[method as u8])];
    let order = read_plainly(&written(&fields.map(|(tag, value)| Field::new(tag, value))));
    assert_eq!(order.number, 0, "the order of method {method} is refused");
    let [fajr, sunrise, dhuhr, asr, maghrib, isha] = order.minutes;
    let KatchidulOrder { method, madhab, high_latitude_rule, rounding, shafaq, fajr_angle, isha_angle, .. } = order;
    let isha_interval = order.isha_interval as i32;
    #[rustfmt::skip]
    let settings = Settings {
        method, madhab, high_latitude_rule, rounding, shafaq, fajr, sunrise, dhuhr, asr, maghrib, isha,
        isha_interval, fajr_angle, isha_angle,
    };
    settings
}

pub fn day(c: &DayCase, rules: Rules) -> Result<ProbeTimes, Refusal> {
    let (year, month, day) = (c.date.year() as u32, c.date.month(), c.date.day());
    answered(unsafe { probe_day(ProbeNumbers(c.numbers), year, month, day, c.latitude, c.settings, rules) })
}

/// Whether an hour number's time is the same by both rules at midnight: it has one by the crate's, and is not below -24.
pub fn needs_no_carrying(number: f64) -> bool {
    number >= -24.0 && port_setting_hour(number).is_some()
}

pub fn row(c: &Case, settings: &Settings, rules: Rules) -> Result<ProbeTimes, Refusal> {
    answered(unsafe { probe_row(c.year, c.month, c.day, c.latitude, c.longitude, *settings, rules) })
}

fn answered(worked: ProbeDay) -> Result<ProbeTimes, Refusal> {
    match worked.number {
        0 => Ok(worked.times),
        number => Err(Refusal { number, place: worked.place }),
    }
}

pub fn in_force(times: ProbeTimes, at: Instant) -> InForce {
    let prayer = |number: u32| if number == NONE { None } else { Some(number) };
    let remaining = unsafe { probe_remaining(times, at.seconds, at.nanoseconds) };
    InForce {
        current: prayer(unsafe { probe_current(times, at.seconds, at.nanoseconds) }),
        next: prayer(unsafe { probe_next(times, at.seconds, at.nanoseconds) }),
        remaining: if remaining.found { Some((remaining.hours, remaining.minutes)) } else { None },
    }
}
