//! Document 01's zones, by the numbers of the crate as it is.
use crate::draw::Case;
use salah_plain::astronomy::solar::access::{Day, HORIZON};

pub const ZONES: [&str; 4] = ["arc cosine's argument", "transit fraction", "latitude", "hour angle's sine"];

/// The zones that a value is in.
pub type Inside = [bool; 4];

/// The transit is worked from neither latitude nor hour angle, so only the fraction can put it in a zone. A margin over 1 widens the
/// zone.
pub fn of_transit(day: &Day, margin: f64) -> Inside {
    let fraction = day.transit_fraction();
    [false, fraction <= margin * 1e-9 || fraction >= 1.0 - margin * 1e-9, false, false]
}

/// A margin over 1 widens all but the latitude's.
pub fn of_angle(day: &Day, latitude: f64, angle: f64, after: bool, margin: f64) -> Inside {
    let (cosine, sine) = day.critical(angle, after);
    let cosine = cosine.abs() >= 1.0 - margin * 0.000001 && cosine.abs() <= 1.0 + margin * 0.000001;
    let [_, fraction, ..] = of_transit(day, margin);
    [cosine, fraction, latitude.abs() > 89.0, sine.abs() < margin * 0.01]
}

/// Of the seven hour numbers of a case.
pub fn zones(c: &Case, day: &Day, margin: f64) -> [Inside; 7] {
    let of_angle = |angle: f64, after: bool| of_angle(day, c.latitude, angle, after, margin);
    [
        of_transit(day, margin),
        of_angle(HORIZON, false),
        of_angle(HORIZON, true),
        of_angle(c.fajr, false),
        of_angle(c.isha, true),
        of_angle(day.afternoon_angle(1.0), true),
        of_angle(day.afternoon_angle(2.0), true),
    ]
}
