//! A module of the copy salah_given: given hour numbers, in place of what ops works out.
//! Each call of the crate is known by its sun and its place among that sun's calls, and must ask for what that call asks for.
use crate::astronomy::unit::{Angle, Coordinates};
use std::cell::RefCell;

/// A sun's three numbers begin at `3 * day`: transit, sunrise, sunset, for the date, the next one and the one after that.
pub const FAJR: usize = 9;
pub const ASR: usize = 10;
pub const ISHA: usize = 11;
pub const FAJR_TOMORROW: usize = 12;
pub type Numbers = [f64; 13];

/// The altitude of sunrise and sunset in `SolarTime::new`.
const HORIZON: f64 = -50.0 / 60.0;

#[derive(Default)]
struct Given {
    numbers: Numbers,
    fajr_angle: f64,
    isha_angle: f64,
    /// The sidereal time of each sun begun so far, by which it is known again.
    suns: Vec<f64>,
    /// How many hour angles each sun was asked for.
    asked: [usize; 3],
    strayed: u64,
}

thread_local! {
    static GIVEN: RefCell<Given> = RefCell::new(Given::default());
}

/// Before `PrayerTimes::new`.
pub fn begin(numbers: Numbers, fajr_angle: f64, isha_angle: f64) {
    GIVEN.with_borrow_mut(|given| {
        given.numbers = numbers;
        (given.fajr_angle, given.isha_angle) = (fajr_angle, isha_angle);
        given.suns.clear();
        given.asked = [0; 3];
    })
}

pub fn suns_begun() -> usize {
    GIVEN.with_borrow(|given| given.suns.len())
}

/// How often a call was none of those that schedule.rs makes: the numbers that it got mean nothing.
pub fn strayed() -> u64 {
    GIVEN.with_borrow(|given| given.strayed)
}

/// In place of `ops::corrected_transit`, the first that a sun asks for.
pub fn corrected_transit(
    _approx_transit: f64,
    _longitude: Angle,
    sidereal_time: Angle,
    _right_ascension: Angle,
    _prev_right_ascension: Angle,
    _next_right_ascension: Angle,
) -> f64 {
    GIVEN.with_borrow_mut(|given| {
        let day = given.suns.len();
        if day > 2 || given.suns.contains(&sidereal_time.degrees) {
            given.strayed += 1;
            return f64::NAN;
        }
        given.suns.push(sidereal_time.degrees);
        given.numbers[3 * day]
    })
}

impl Given {
    /// The number, angle and side of transit of a sun's next hour angle. Asr's angle is not checked: the crate works it out.
    fn next_asked(&mut self, day: usize, angle: f64) -> Option<(f64, f64, bool)> {
        let (number, angle, after_transit) = match (day, self.asked[day]) {
            (_, 0) => (3 * day + 1, HORIZON, false),
            (_, 1) => (3 * day + 2, HORIZON, true),
            (0, 2) => (ASR, angle, true),
            (0, 3) => (FAJR, -self.fajr_angle, false),
            (0, 4) => (ISHA, -self.isha_angle, true),
            (1, 2) => (FAJR_TOMORROW, -self.fajr_angle, false),
            _ => return None,
        };
        self.asked[day] += 1;
        Some((self.numbers[number], angle, after_transit))
    }
}

/// In place of `ops::corrected_hour_angle`.
#[allow(clippy::too_many_arguments)]
pub fn corrected_hour_angle(
    _approx_transit: f64,
    angle: Angle,
    _coordinates: Coordinates,
    after_transit: bool,
    sidereal_time: Angle,
    _right_ascension: Angle,
    _prev_right_ascension: Angle,
    _next_right_ascension: Angle,
    _declination: Angle,
    _prev_declination: Angle,
    _next_declination: Angle,
) -> f64 {
    GIVEN.with_borrow_mut(|given| {
        let day = given.suns.iter().position(|&sun| sun == sidereal_time.degrees);
        match day.and_then(|day| given.next_asked(day, angle.degrees)) {
            Some((number, asked, after)) if asked == angle.degrees && after == after_transit => number,
            _ => {
                given.strayed += 1;
                f64::NAN
            }
        }
    })
}
