//! The thirteen hour numbers behind a row: the port's, those of the crate as it is, which of them the row uses, and their zones.
use crate::day_crate::Refusal;
use crate::day_draw::{NaiveDate, Settings, MOONSIGHTING};
use crate::draw::Case;
use crate::numbers::{port_afternoon, port_angle, port_sun};
use crate::rows::date;
use crate::zones::{of_angle, of_transit, Inside};
use chrono::{Datelike, Duration};
use salah_given::given::{Numbers, ASR, FAJR, FAJR_TOMORROW, ISHA};
use salah_plain::astronomy::solar::access::{Day, HORIZON};

pub const NAMES: [&str; 13] = [
    "transit", "sunrise", "sunset", "tomorrow's transit", "tomorrow's sunrise", "tomorrow's sunset", "day 2's transit", "day 2's sunrise",
    "day 2's sunset", "Fajr", "Asr", "Isha", "tomorrow's Fajr",
];

/// The case on the date of day 0, 1 or 2.
fn on_day(c: &Case, day: i64) -> Case {
    let date: NaiveDate = date(c) + Duration::days(day);
    Case { year: date.year() as u32, month: date.month(), day: date.day(), ..*c }
}

fn shadow(settings: &Settings) -> f64 {
    settings.madhab as f64
}

pub fn by_port(c: &Case, settings: &Settings) -> Numbers {
    let mut numbers = [0.0; 13];
    for day in 0..3 {
        numbers[3 * day..3 * day + 3].copy_from_slice(&port_sun(&on_day(c, day as i64)));
    }
    numbers[FAJR] = port_angle(c, -settings.fajr_angle, false);
    numbers[ASR] = port_afternoon(c, shadow(settings));
    numbers[ISHA] = port_angle(c, -settings.isha_angle, true);
    numbers[FAJR_TOMORROW] = port_angle(&on_day(c, 1), -settings.fajr_angle, false);
    numbers
}

/// What the crate asks of its suns for a number: which sun, and of which angle on which side; the transit has none.
fn asked(number: usize, suns: &[Day; 3], settings: &Settings) -> (usize, Option<(f64, bool)>) {
    match number {
        FAJR => (0, Some((-settings.fajr_angle, false))),
        ASR => (0, Some((suns[0].afternoon_angle(shadow(settings)), true))),
        ISHA => (0, Some((-settings.isha_angle, true))),
        FAJR_TOMORROW => (1, Some((-settings.fajr_angle, false))),
        _ => (number / 3, [None, Some((HORIZON, false)), Some((HORIZON, true))][number % 3]),
    }
}

/// The numbers of the crate as it is, and the zones of each.
pub fn by_plain(c: &Case, settings: &Settings) -> (Numbers, [Inside; 13]) {
    let suns = [0, 1, 2].map(|day| {
        let c = on_day(c, day);
        Day::new(c.year, c.month, c.day, c.latitude, c.longitude)
    });
    let (mut numbers, mut zones) = ([0.0; 13], [[false; 4]; 13]);
    for number in 0..13 {
        let (sun, angle) = asked(number, &suns, settings);
        let sun = &suns[sun];
        (numbers[number], zones[number]) = match angle {
            None => (sun.transit(), of_transit(sun, 1.0)),
            Some((angle, after)) => (sun.angle(angle, after), of_angle(sun, c.latitude, angle, after, 1.0)),
        };
    }
    (numbers, zones)
}

/// A refused day uses the suns' numbers up to the one that is missing. Otherwise all are used but Isha's under an interval and the
/// angles that the seventh of the night replaces.
pub fn used(c: &Case, settings: &Settings, refused: Option<Refusal>) -> [bool; 13] {
    let mut used = [true; 13];
    if let Some(Refusal { number: number @ 6..=8, place }) = refused {
        used.iter_mut().skip(3 * place as usize + number as usize - 5).for_each(|used| *used = false);
        return used;
    }
    let seventh = settings.method == MOONSIGHTING && c.latitude >= 55.0;
    (used[FAJR], used[FAJR_TOMORROW]) = (!seventh, !seventh);
    used[ISHA] = !seventh && settings.isha_interval <= 0;
    used
}
