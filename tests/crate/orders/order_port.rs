//! What a host asks of the port: the six calls of include/katchidul.h, each answer as it declares it.
use crate::day_crate::Refusal;
use crate::day_draw::Instant;

#[derive(Debug, Clone, Copy, Default)]
#[repr(C)]
pub struct KatchidulOrder {
    pub number: u32,
    pub place: u32,
    pub town_at: u32,
    pub town_length: u32,
    pub year: u32,
    pub month: u32,
    pub day: u32,
    pub rows: u32,
    pub latitude: f64,
    pub longitude: f64,
    pub fajr_angle: f64,
    pub isha_angle: f64,
    pub method: u32,
    pub madhab: u32,
    pub high_latitude_rule: u32,
    pub rounding: u32,
    pub shafaq: u32,
    pub isha_interval: u32,
    pub minutes: [i32; 6],
    /// carry, clock, southern, ramadan, imsak, shift
    pub choices: [i32; 6],
}

#[derive(Debug, Clone, Copy, Default, PartialEq)]
#[repr(C)]
pub struct KatchidulDay {
    pub number: u32,
    pub place: u32,
    pub times: [i64; 9],
}

#[derive(Debug, Clone, Copy, Default, PartialEq)]
#[repr(C)]
pub struct KatchidulPrayer {
    pub number: u32,
    pub place: u32,
    pub prayer: u32,
}

#[derive(Debug, Clone, Copy, Default, PartialEq)]
#[repr(C)]
pub struct KatchidulRemaining {
    pub number: u32,
    pub place: u32,
    pub hours: u32,
    pub minutes: u32,
}

#[derive(Debug, Clone, Copy, Default, PartialEq)]
#[repr(C)]
pub struct KatchidulReply {
    pub number: u32,
    pub place: u32,
}

impl From<Refusal> for KatchidulReply {
    fn from(Refusal { number, place }: Refusal) -> KatchidulReply {
        KatchidulReply { number, place }
    }
}

/// A refused answer has number and place, and 0 in every other field.
macro_rules! refused_as {
    ($answer:ident) => {
        impl From<Refusal> for $answer {
            fn from(Refusal { number, place }: Refusal) -> $answer {
                $answer { number, place, ..$answer::default() }
            }
        }
    };
}

refused_as!(KatchidulOrder);
refused_as!(KatchidulDay);
refused_as!(KatchidulPrayer);
refused_as!(KatchidulRemaining);

#[rustfmt::skip]
#[link(name = "katchidul", kind = "static")]
extern "C" {
    fn katchidul_read_order(order: *const u8, length: usize) -> KatchidulOrder;
    fn katchidul_work_day(order: *const u8, length: usize, row: u32) -> KatchidulDay;
    fn katchidul_prayer_at(order: *const u8, length: usize, row: u32, seconds: i64, nanoseconds: u32) -> KatchidulPrayer;
    fn katchidul_next_at(order: *const u8, length: usize, row: u32, seconds: i64, nanoseconds: u32) -> KatchidulPrayer;
    fn katchidul_remaining_at(order: *const u8, length: usize, row: u32, seconds: i64, nanoseconds: u32) -> KatchidulRemaining;
    fn katchidul_write_row(order: *const u8, length: usize, row: u32, buffer: *mut u8, size: usize) -> KatchidulReply;
}

/// What the plain reader answers: what a host gets, and what the method brings.
#[repr(C)]
struct ProbeOrder {
    order: KatchidulOrder,
    _maghrib_angle: f64,
    _method_minutes: [i32; 6],
}

#[link(name = "probes", kind = "static")]
extern "C" {
    fn probe_plain(order: *const u8, length: usize) -> ProbeOrder;
}

pub fn read_plainly(order: &[u8]) -> KatchidulOrder {
    unsafe { probe_plain(order.as_ptr(), order.len()) }.order
}

pub fn read_order(order: &[u8]) -> KatchidulOrder {
    unsafe { katchidul_read_order(order.as_ptr(), order.len()) }
}

pub fn work_day(order: &[u8], row: u32) -> KatchidulDay {
    unsafe { katchidul_work_day(order.as_ptr(), order.len(), row) }
}

pub fn prayer_at(order: &[u8], row: u32, at: Instant) -> KatchidulPrayer {
    unsafe { katchidul_prayer_at(order.as_ptr(), order.len(), row, at.seconds, at.nanoseconds) }
}

pub fn next_at(order: &[u8], row: u32, at: Instant) -> KatchidulPrayer {
    unsafe { katchidul_next_at(order.as_ptr(), order.len(), row, at.seconds, at.nanoseconds) }
}

pub fn remaining_at(order: &[u8], row: u32, at: Instant) -> KatchidulRemaining {
    unsafe { katchidul_remaining_at(order.as_ptr(), order.len(), row, at.seconds, at.nanoseconds) }
}

pub fn write_row(order: &[u8], row: u32, buffer: &mut [u8]) -> KatchidulReply {
    unsafe { katchidul_write_row(order.as_ptr(), order.len(), row, buffer.as_mut_ptr(), buffer.len()) }
}

/// The answer's fields in its order, a float by its bits, so that -0.0 is not 0.0.
pub const ORDER_FIELDS: [&str; 30] = [
    "number", "place", "town_at", "town_length", "year", "month", "day", "rows", "latitude", "longitude", "fajr_angle", "isha_angle",
    "method", "madhab", "high_latitude_rule", "rounding", "shafaq", "isha_interval", "minutes, Fajr", "minutes, sunrise",
    "minutes, dhuhr", "minutes, Asr", "minutes, Maghrib", "minutes, Isha", "carry", "clock", "southern", "ramadan", "imsak", "shift",
];

impl KatchidulOrder {
    pub fn fields(&self) -> [u64; ORDER_FIELDS.len()] {
        let KatchidulOrder { number, place, town_at, town_length, year, month, day, rows, .. } = *self;
        let KatchidulOrder { method, madhab, high_latitude_rule, rounding, shafaq, isha_interval, .. } = *self;
        let mut fields = [0; ORDER_FIELDS.len()];
        fields[..8].copy_from_slice(&[number, place, town_at, town_length, year, month, day, rows].map(u64::from));
        fields[8..12].copy_from_slice(&[self.latitude, self.longitude, self.fajr_angle, self.isha_angle].map(f64::to_bits));
        let choices = [method, madhab, high_latitude_rule, rounding, shafaq, isha_interval];
        fields[12..18].copy_from_slice(&choices.map(u64::from));
        fields[18..24].copy_from_slice(&self.minutes.map(|minutes| minutes as u64));
        fields[24..].copy_from_slice(&self.choices.map(|choice| choice as u64));
        fields
    }
}
