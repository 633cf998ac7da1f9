//! The seven hour numbers of a case: by the port, by the crate as it is, and by the crate on the port's functions.
use crate::draw::Case;
use salah_probes::astronomy::solar::access as probes;
use salah_plain::astronomy::solar::access as plain;

pub const VALUES: [&str; 7] = ["transit", "sunrise", "sunset", "Fajr's angle", "Isha's angle", "afternoon 1", "afternoon 2"];

#[repr(C)]
struct ProbeHours {
    transit: f64,
    sunrise: f64,
    sunset: f64,
}

// The library is linked with salah_probes.
#[rustfmt::skip]
extern "C" {
    fn probe_hour_numbers(year: u32, month: u32, day: u32, latitude: f64, longitude: f64) -> ProbeHours;
    fn probe_angle_number(year: u32, month: u32, day: u32, latitude: f64, longitude: f64, angle: f64, after_transit: bool) -> f64;
    fn probe_afternoon_number(year: u32, month: u32, day: u32, latitude: f64, longitude: f64, shadow_length: f64) -> f64;
}

/// Transit, sunrise and sunset of the case's date.
pub fn port_sun(c: &Case) -> [f64; 3] {
    let ProbeHours { transit, sunrise, sunset } = unsafe { probe_hour_numbers(c.year, c.month, c.day, c.latitude, c.longitude) };
    [transit, sunrise, sunset]
}

pub fn port_angle(c: &Case, angle: f64, after_transit: bool) -> f64 {
    unsafe { probe_angle_number(c.year, c.month, c.day, c.latitude, c.longitude, angle, after_transit) }
}

pub fn port_afternoon(c: &Case, shadow_length: f64) -> f64 {
    unsafe { probe_afternoon_number(c.year, c.month, c.day, c.latitude, c.longitude, shadow_length) }
}

pub fn by_port(c: &Case) -> [f64; 7] {
    let [transit, sunrise, sunset] = port_sun(c);
    let (fajr, isha) = (port_angle(c, c.fajr, false), port_angle(c, c.isha, true));
    [transit, sunrise, sunset, fajr, isha, port_afternoon(c, 1.0), port_afternoon(c, 2.0)]
}

/// The copies' types are their own, so the one text is written out for each.
macro_rules! by_copy {
    ($name:ident, $copy:ident) => {
        pub fn $name(c: &Case, day: &$copy::Day) -> [f64; 7] {
            let afternoon = |shadow| day.angle(day.afternoon_angle(shadow), true);
            let (sunrise, sunset) = (day.angle($copy::HORIZON, false), day.angle($copy::HORIZON, true));
            let (fajr, isha) = (day.angle(c.fajr, false), day.angle(c.isha, true));
            [day.transit(), sunrise, sunset, fajr, isha, afternoon(1.0), afternoon(2.0)]
        }
    };
}

by_copy!(by_plain, plain);
by_copy!(by_probes, probes);
