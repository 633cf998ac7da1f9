//! The cases that are compared: dates, places and angles, the same for the same seed.
use chrono::{Datelike, Duration, NaiveDate};
use salah_plain::astronomy::solar::access::{Day, HORIZON};
use salah_plain::models::method::Method::*;

/// A date, a place and two angles as `time_for_solar_angle` gets them (below the horizon is negative).
#[derive(Debug, Clone, Copy)]
pub struct Case {
    pub year: u32,
    pub month: u32,
    pub day: u32,
    pub latitude: f64,
    pub longitude: f64,
    pub fajr: f64,
    pub isha: f64,
}

/// Ends of the ranges, both zeros, the poles' and tropics' circles, where MoonsightingCommittee changes, where a zone begins.
pub const LATITUDES: [f64; 16] = [
    0.0, -0.0, 90.0, -90.0, 89.0, -89.0, 66.56, -66.56, 23.44, -23.44, 55.0, -55.0, 48.0, 5e-324, -5e-324, 1e-9,
];
const LONGITUDES: [f64; 12] =
    [0.0, -0.0, 180.0, -180.0, 90.0, -90.0, 179.99, -179.99, 5e-324, -5e-324, 39.8262, -66.7];

/// Random numbers by Steele, Lea and Flood's SplitMix64.
pub struct Draw(pub u64);

impl Draw {
    pub fn bits(&mut self) -> u64 {
        self.0 = self.0.wrapping_add(0x9e3779b97f4a7c15);
        let z = (self.0 ^ (self.0 >> 30)).wrapping_mul(0xbf58476d1ce4e5b9);
        let z = (z ^ (z >> 27)).wrapping_mul(0x94d049bb133111eb);
        z ^ (z >> 31)
    }

    pub fn below(&mut self, count: u64) -> u64 {
        self.bits() % count
    }

    pub fn between(&mut self, from: f64, to: f64) -> f64 {
        from + (to - from) * ((self.bits() >> 11) as f64 / (1u64 << 53) as f64)
    }

    pub fn one_of(&mut self, list: &[f64]) -> f64 {
        list[self.below(list.len() as u64) as usize]
    }

    pub fn sign(&mut self) -> f64 {
        if self.below(2) == 0 { 1.0 } else { -1.0 }
    }

    /// A small step to either side, every size from 1 down to 10^-12 as likely as another.
    pub fn step(&mut self) -> f64 {
        self.sign() * 10f64.powf(self.between(-12.0, 0.0))
    }

    /// An angle of a method or of an order, 0 to 30.
    pub fn angle(&mut self, of_methods: &[f64]) -> f64 {
        match self.below(8) {
            0 => self.one_of(&[0.0, 30.0, 5e-324]),
            1..=4 => self.one_of(of_methods),
            _ => self.between(0.0, 30.0),
        }
    }

    /// `altitude` is one that the case asks for.
    fn latitude(&mut self, sun: &Day, altitude: f64) -> f64 {
        let latitude = match self.below(10) {
            0..=3 => self.between(-90.0, 90.0),
            4 => self.sign() * self.between(60.0, 90.0),
            5 => self.one_of(&LATITUDES),
            6 => self.one_of(&LATITUDES) + self.step(),
            7 => self.below(361) as f64 / 2.0 - 90.0,
            // the sun only just comes to the altitude, at its highest or at its lowest: the arc cosine is of about 1 or -1
            8 => sun.declination() + self.sign() * (90.0 - altitude) + self.step(),
            _ => self.sign() * (90.0 + altitude) - sun.declination() + self.step(),
        };
        if latitude.abs() <= 90.0 { latitude } else { self.between(-90.0, 90.0) }
    }

    /// `sun` is that of longitude 0.
    fn longitude(&mut self, sun: &Day) -> f64 {
        let longitude = match self.below(10) {
            0..=4 => self.between(-180.0, 180.0),
            5 => self.one_of(&LONGITUDES),
            6 => self.one_of(&LONGITUDES) + self.step(),
            7 => self.below(721) as f64 / 2.0 - 180.0,
            8 => self.sign() * 180.0 + self.step(),
            // transit at about midnight: its fraction is of about 0 or 1
            _ => sun.transit_fraction() * 360.0 + self.step(),
        };
        // over the date line
        if longitude > 180.0 {
            longitude - 360.0
        } else if longitude < -180.0 {
            longitude + 360.0
        } else {
            longitude
        }
    }

    /// An hour number below 2^32: ordinary ones, halves of minutes and whole hours with their neighbours, and every pattern.
    pub fn hour_number(&mut self) -> f64 {
        let near = |x: f64, bits: u64| f64::from_bits(x.to_bits().wrapping_add(bits % 9).wrapping_sub(4));
        let value = match self.below(8) {
            0 | 1 => self.between(-50.0, 75.0),
            2 => (self.below(15000) as f64 - 6000.0) / 120.0,
            3 => near((self.below(15000) as f64 - 6000.0) / 120.0, self.bits()),
            4 => self.one_of(&[0.0, 24.0, 48.0, -24.0, 23.995, -1.0]) + self.step(),
            5 => self.one_of(&[0.0, -0.0, 5e-324, 2.2250738585072014e-308, f64::NAN, f64::INFINITY, -25.0, -1e-17]),
            6 => self.between(0.0, 4294967296.0),
            _ => f64::from_bits(self.bits()),
        };
        if value.abs() < 4294967296.0 || !value.is_finite() { value } else { self.between(-50.0, 75.0) }
    }

    /// A day from 1899 to 2200, by its number.
    pub fn day_number(&mut self) -> i32 {
        self.below(110_000) as i32 - 25_900
    }

    pub fn any_latitude(&mut self) -> f64 {
        if self.below(4) == 0 { self.one_of(&LATITUDES) } else { self.between(-90.0, 90.0) }
    }

    pub fn year(&mut self) -> u32 {
        1900 + self.below(300) as u32
    }

    pub fn ordinal(&mut self) -> u32 {
        1 + self.below(366) as u32
    }

    /// A second from 1899 to 2200.
    pub fn instant(&mut self) -> i64 {
        self.below(9_500_000_000) as i64 - 2_240_000_000
    }

    pub fn case(&mut self) -> Case {
        let (first, end) = (NaiveDate::from_ymd_opt(1900, 1, 1).unwrap(), NaiveDate::from_ymd_opt(2200, 1, 1).unwrap());
        let days = end.signed_duration_since(first).num_days() as u64;
        let date = first + Duration::days(self.below(days) as i64);
        self.case_on(date)
    }

    pub fn case_on(&mut self, date: NaiveDate) -> Case {
        let (year, month, day) = (date.year() as u32, date.month(), date.day());

        let methods = [
            MuslimWorldLeague, Egyptian, Karachi, UmmAlQura, Dubai, MoonsightingCommittee, NorthAmerica, Kuwait, Qatar,
            Singapore, Tehran, Turkey, Other,
        ]
        .map(|method| method.parameters());
        let (fajr, isha) =
            (-self.angle(&methods.map(|m| m.fajr_angle)), -self.angle(&methods.map(|m| m.isha_angle)));

        let sun = Day::new(year, month, day, 0.0, 0.0);
        let altitude = self.one_of(&[HORIZON, fajr, isha]);
        let latitude = self.latitude(&sun, altitude);
        let longitude = self.longitude(&sun);
        Case { year, month, day, latitude, longitude, fajr, isha }
    }
}
