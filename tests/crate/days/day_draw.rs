//! The days and instants that are compared: hour numbers, dates, latitudes and parameters of every kind.
use crate::draw::{Draw, LATITUDES};
pub use chrono::NaiveDate;
use chrono::{Datelike, Duration};
use salah_given::given::{Numbers, ASR, FAJR, FAJR_TOMORROW, ISHA};
use salah_given::models::method::Method;

pub const METHODS: [Method; 13] = [
    Method::MuslimWorldLeague,
    Method::Egyptian,
    Method::Karachi,
    Method::UmmAlQura,
    Method::Dubai,
    Method::MoonsightingCommittee,
    Method::NorthAmerica,
    Method::Kuwait,
    Method::Qatar,
    Method::Singapore,
    Method::Tehran,
    Method::Turkey,
    Method::Other,
];
pub const MOONSIGHTING: u32 = 5;

/// The number for no prayer in force; the prayers count from 1.
pub const NONE: u32 = 0;

/// Parameters by document 01's numbers, none left to the method.
#[derive(Debug, Clone, Copy)]
#[repr(C)]
pub struct Settings {
    pub method: u32,
    pub madhab: u32,
    pub high_latitude_rule: u32,
    pub rounding: u32,
    pub shafaq: u32,
    pub fajr: i32,
    pub sunrise: i32,
    pub dhuhr: i32,
    pub asr: i32,
    pub maghrib: i32,
    pub isha: i32,
    pub isha_interval: i32,
    pub fajr_angle: f64,
    pub isha_angle: f64,
}

#[derive(Debug, Clone, Copy)]
pub struct DayCase {
    pub numbers: Numbers,
    pub date: NaiveDate,
    pub latitude: f64,
    pub settings: Settings,
}

/// Seconds from 1970 and nanoseconds.
#[derive(Debug, Clone, Copy)]
pub struct Instant {
    pub seconds: i64,
    pub nanoseconds: u32,
}

/// Ends of the crate's counts within a year: of months, of the year, of the season's parts in the north and in the south.
const ORDINALS: [u64; 18] = [1, 2, 35, 36, 59, 60, 61, 80, 81, 82, 126, 172, 173, 354, 355, 364, 365, 366];

/// Least, greatest and half minutes' edges of the hour numbers that have a time, and those beside them that have none.
const EDGES: [f64; 16] = [
    0.0, -0.0, 1.0, 23.99, 23.991666666666667, 23.995, 24.0, 24.25, 47.99, 47.991666666666667, 48.0, -0.5, -1e-17, -24.001, -25.0, -50.0,
];

/// Far below 0, so that the hour is clamped, and those that are not normal or nearly so.
const FAR: [f64; 12] = [
    -1e300, -1e15, -4294967297.5, -4294967319.9999, -1000.3, f64::NEG_INFINITY, f64::INFINITY, f64::NAN, 1e-310, -1e-310,
    f64::MIN_POSITIVE, -f64::MIN_POSITIVE,
];

/// From 2^32 on, so that the crate's hour can wrap.
const WRAPPING: [f64; 6] = [4294967296.0, 4294967319.9999, 4294967320.995, 4294967319.0, 1e12 + 0.9990234375, 1e300];

impl Draw {
    /// An hour number that has a time, nearly always.
    fn timed(&mut self) -> f64 {
        match self.below(32) {
            0..=15 => self.between(-50.0, 48.0),
            16..=23 => (self.below(11_759) as f64 - 6000.0) / 120.0,
            24..=29 => {
                let half = ((self.below(11_759) as f64 - 6000.0) / 120.0).to_bits();
                f64::from_bits(half.wrapping_add(self.below(9)).wrapping_sub(4))
            }
            30 => self.one_of(&EDGES),
            _ => self.one_of(&EDGES) + self.step(),
        }
    }

    /// Numbers as the sun gives them: three days alike, twilight outside of the day and Asr inside.
    fn natural(&mut self) -> Numbers {
        let (noon, half) = (self.between(0.0, 24.0), self.between(0.0, 12.0));
        let mut numbers = [0.0; 13];
        for day in 0..3 {
            let (noon, half) = (noon + self.between(-0.1, 0.1), half + self.between(-0.1, 0.1));
            numbers[3 * day] = noon;
            numbers[3 * day + 1] = noon - half;
            numbers[3 * day + 2] = noon + half;
        }
        numbers[FAJR] = numbers[1] - self.between(0.0, 4.0);
        numbers[ASR] = noon + half * self.between(0.0, 1.0);
        numbers[ISHA] = numbers[2] + self.between(0.0, 4.0);
        numbers[FAJR_TOMORROW] = numbers[4] - self.between(0.0, 4.0);
        numbers
    }

    fn numbers(&mut self) -> Numbers {
        let mut numbers = if self.below(2) == 0 { self.natural() } else { [0.0; 13].map(|_| self.timed()) };
        match self.below(16) {
            0..=2 => numbers[self.below(13) as usize] = self.hour_number(),
            3..=6 => {
                for angle in [FAJR, ASR, ISHA, FAJR_TOMORROW] {
                    numbers[angle] = self.hour_number();
                }
            }
            7 => numbers = [0.0; 13].map(|_| self.hour_number()),
            8 => numbers[self.below(13) as usize] = self.one_of(&WRAPPING),
            9 => numbers[self.below(13) as usize] = self.between(4294967296.0, 4294967400.0),
            10 => numbers[self.below(13) as usize] = self.one_of(&FAR),
            _ => {}
        }
        numbers
    }

    pub fn date(&mut self) -> NaiveDate {
        if self.below(4) == 0 {
            let (year, ordinal) = (self.year() as i32, ORDINALS[self.below(18) as usize] as u32);
            return NaiveDate::from_yo_opt(year, ordinal).unwrap_or(NaiveDate::from_ymd_opt(year, 12, 31).unwrap());
        }
        let (first, end) = (NaiveDate::from_ymd_opt(1900, 1, 1).unwrap(), NaiveDate::from_ymd_opt(2200, 1, 1).unwrap());
        first + Duration::days(self.below(end.signed_duration_since(first).num_days() as u64) as i64)
    }

    fn day_latitude(&mut self) -> f64 {
        let latitude = match self.below(4) {
            0 => self.one_of(&LATITUDES),
            1 => self.one_of(&LATITUDES) + self.step(),
            _ => self.between(-90.0, 90.0),
        };
        latitude.clamp(-90.0, 90.0)
    }

    pub fn minutes(&mut self) -> i32 {
        match self.below(8) {
            0..=2 => 0,
            3..=5 => self.below(121) as i32 - 60,
            6 => self.below(1441) as i32 - 720,
            _ => 720 * self.sign() as i32,
        }
    }

    pub fn settings(&mut self) -> Settings {
        let method = if self.below(4) == 0 { MOONSIGHTING } else { self.below(13) as u32 };
        let preset = METHODS[method as usize].parameters();
        let own_interval = [0, 1, 90, 1440, self.below(1441) as i32][self.below(5) as usize];
        Settings {
            method,
            madhab: 1 + self.below(2) as u32,
            high_latitude_rule: self.below(3) as u32,
            rounding: if self.below(4) == 0 { preset.rounding as u32 } else { self.below(3) as u32 },
            shafaq: self.below(3) as u32,
            fajr: self.minutes(),
            sunrise: self.minutes(),
            dhuhr: self.minutes(),
            asr: self.minutes(),
            maghrib: self.minutes(),
            isha: self.minutes(),
            isha_interval: if self.below(4) == 0 { own_interval } else { preset.isha_interval },
            fajr_angle: if self.below(2) == 0 { preset.fajr_angle } else { self.angle(&[preset.fajr_angle]) },
            isha_angle: if self.below(2) == 0 { preset.isha_angle } else { self.angle(&[preset.isha_angle]) },
        }
    }

    pub fn day_case(&mut self) -> DayCase {
        DayCase { numbers: self.numbers(), date: self.date(), latitude: self.day_latitude(), settings: self.settings() }
    }

    /// At one of a day's nine times, around it, an hour less a second before it, or anywhere.
    pub fn instant_near(&mut self, times: &[i64; 9]) -> Instant {
        let time = times[self.below(9) as usize];
        let (seconds, nanoseconds) = match self.below(16) {
            0 | 1 => (time, 0),
            2 | 3 => (time - 1, 0),
            4 | 5 => (time - 1, 1),
            6 => (time - 1, 500_000_000),
            7 => (time - 1, 999_999_999),
            8 => (time, 1),
            9 => (time + 1, 0),
            10 => (time - 2, 999_999_999),
            11 => (time - 3599, self.below(3) as u32),
            12 => (time - 30 * self.below(2000) as i64, 0),
            13 => (time - self.below(200_000) as i64, self.below(1_000_000_000) as u32),
            14 => (time + self.below(200_000) as i64, self.below(1_000_000_000) as u32),
            _ => ([-1_000_000_000_000, 1_000_000_000_000, 0, -1][self.below(4) as usize], self.one_of(&[0.0, 999_999_999.0]) as u32),
        };
        Instant { seconds, nanoseconds }
    }
}

/// By the calendar of the machine's chrono, which the crate uses too.
pub fn midnight(date: NaiveDate) -> i64 {
    (date.num_days_from_ce() as i64 - 719_163) * 86_400
}
