//! Prayer timetables in braille, by the proved calls of katchidul.h.
//!
//! ```
//! # fn main() -> Result<(), katchidul::Refused> {
//! let order = b"\x01\0\x06Durham\x02\0\x04\x07\xea\x06\x01\x03\0\x01\x1e\
//!     \x04\0\x08@Kc=\x07\xc8K^\x05\0\x08\xbf\xf9[\xc0\x1a6\xe2\xeb\x06\0\x01\0";
//! let times = katchidul::work_day(order, 0)?;
//! assert_eq!(times.fajr, 1780272300); // 2026-06-01T00:05:00 UTC
//! assert_eq!(katchidul::prayer_at(order, 0, times.dhuhr.into())?, Some(katchidul::Prayer::Dhuhr));
//! assert_eq!(katchidul::work_day(order, 30).unwrap_err().refusal, katchidul::Refusal::OutOfRange);
//! # Ok(())
//! # }
//! ```
//!
//! A call has the header's name without `katchidul_`. What the header's call writes into a lent buffer is returned. The nine times, the
//! prayers and a school's choices have the names of the crate salah. Calls allocate nothing but what they return, and have no state.
mod models;
mod raw;
mod refusal;

pub use models::{Carry, HighLatitudeRule, Madhab, Method, Prayer, PrayerTimes, Rounding, Shafaq, Southern, TimeAdjustment};
pub use refusal::{Refusal, Refused};

use refusal::refused_or;
use std::time::{SystemTime, UNIX_EPOCH};

/// The header's version that this crate is written to.
pub const VERSION: (u32, u32) = (1, 0);
pub const WRITTEN_MAX: usize = 157;
pub const ROW_CELLS: usize = 39;
pub const PAGE_ROWS: usize = 25;
pub const RAMADAN_ROW_BYTES: usize = 131;
pub const SENTENCE_MAX: usize = 100;
pub const PAGES_MAX: usize = 16;

/// Bytes that are enough for a job's log while no more pages are sent and not done.
pub const fn log_room(open: usize) -> usize {
    5 * (open + 2)
}

/// The library's major and minor number.
pub fn version() -> (u32, u32) {
    let number = unsafe { raw::katchidul_version() };
    (number / 65536, number % 65536)
}

// ---- an order

/// A Ramadan sheet: minutes from imsak to Fajr, and days from the tabular 1 Ramadan to the first day.
#[derive(Clone, Copy, Debug, PartialEq, Eq)]
pub struct Ramadan {
    pub imsak: u32,
    pub shift: i32,
}

/// What an order asks for.
#[derive(Clone, Debug, PartialEq)]
pub struct Order {
    pub town: String,
    /// The date of row 0: year, month and day.
    pub first_day: (u32, u32, u32),
    pub rows: u32,
    pub latitude: f64,
    pub longitude: f64,
    pub method: Method,
    pub fajr_angle: f64,
    pub isha_angle: f64,
    pub isha_interval: u32,
    pub madhab: Madhab,
    pub high_latitude_rule: HighLatitudeRule,
    pub adjustments: TimeAdjustment,
    pub rounding: Rounding,
    pub shafaq: Shafaq,
    pub carry: Carry,
    /// Minutes from UTC to the clock that the cells show.
    pub clock: i32,
    pub southern: Southern,
    pub ramadan: Option<Ramadan>,
}

/// Reads an order.
pub fn read_order(order: &[u8]) -> Result<Order, Refused> {
    let said = unsafe { raw::katchidul_read_order(order.as_ptr(), order.len()) };
    refused_or(said.number, said.place, ())?;
    let town = &order[said.town_at as usize..(said.town_at + said.town_length) as usize];
    let [fajr, sunrise, dhuhr, asr, maghrib, isha] = said.minutes;
    Ok(Order {
        town: String::from_utf8_lossy(town).into_owned(),
        first_day: (said.year, said.month, said.day),
        rows: said.rows,
        latitude: said.latitude,
        longitude: said.longitude,
        method: chosen(Method::from_number(said.method)),
        fajr_angle: said.fajr_angle,
        isha_angle: said.isha_angle,
        isha_interval: said.isha_interval,
        madhab: chosen(Madhab::from_number(said.madhab)),
        high_latitude_rule: chosen(HighLatitudeRule::from_number(said.high_latitude_rule)),
        adjustments: TimeAdjustment { fajr, sunrise, dhuhr, asr, maghrib, isha },
        rounding: chosen(Rounding::from_number(said.rounding)),
        shafaq: chosen(Shafaq::from_number(said.shafaq)),
        carry: chosen(Carry::from_number(said.carry)),
        clock: said.clock,
        southern: chosen(Southern::from_number(said.southern)),
        ramadan: (said.ramadan == 1).then_some(Ramadan { imsak: said.imsak, shift: said.shift }),
    })
}

fn chosen<T>(choice: Option<T>) -> T {
    choice.expect("an order that is read has no other choices")
}

/// Writes an order. What reading its bytes would refuse is refused.
pub fn write_order(order: &Order) -> Result<Vec<u8>, Refused> {
    let (year, month, day) = order.first_day;
    let own = order.adjustments;
    let told = raw::Order {
        year,
        month,
        day,
        rows: order.rows,
        latitude: order.latitude,
        longitude: order.longitude,
        fajr_angle: order.fajr_angle,
        isha_angle: order.isha_angle,
        method: order.method.number(),
        madhab: order.madhab.number(),
        high_latitude_rule: order.high_latitude_rule.number(),
        rounding: order.rounding.number(),
        shafaq: order.shafaq.number(),
        isha_interval: order.isha_interval,
        minutes: [own.fajr, own.sunrise, own.dhuhr, own.asr, own.maghrib, own.isha],
        carry: order.carry.number(),
        clock: order.clock,
        southern: order.southern.number(),
        ramadan: order.ramadan.is_some().into(),
        imsak: order.ramadan.map_or(0, |sheet| sheet.imsak),
        shift: order.ramadan.map_or(0, |sheet| sheet.shift),
        ..Default::default()
    };
    let mut bytes = vec![0; WRITTEN_MAX];
    let said = unsafe { raw::katchidul_write_order(told, order.town.as_ptr(), order.town.len(), bytes.as_mut_ptr(), bytes.len()) };
    refused_or(said.number, said.place, ())?;
    bytes.truncate(said.length as usize);
    Ok(bytes)
}

// ---- a day

/// Works the nine times of a row's date; rows count from 0.
pub fn work_day(order: &[u8], row: u32) -> Result<PrayerTimes, Refused> {
    let said = unsafe { raw::katchidul_work_day(order.as_ptr(), order.len(), row) };
    let [fajr, sunrise, dhuhr, asr, maghrib, isha, middle_of_the_night, qiyam, fajr_tomorrow] = said.times;
    let times = PrayerTimes { fajr, sunrise, dhuhr, asr, maghrib, isha, middle_of_the_night, qiyam, fajr_tomorrow };
    refused_or(said.number, said.place, times)
}

/// Whole seconds from 1970-01-01T00:00:00 UTC on, rounded down, and nanoseconds, which count forward from there.
#[derive(Clone, Copy, Debug, PartialEq, Eq)]
pub struct Instant {
    pub seconds: i64,
    pub nanoseconds: u32,
}

impl From<i64> for Instant {
    fn from(seconds: i64) -> Instant {
        Instant { seconds, nanoseconds: 0 }
    }
}

impl From<SystemTime> for Instant {
    fn from(time: SystemTime) -> Instant {
        let (since, before) = match time.duration_since(UNIX_EPOCH) {
            Ok(since) => (since, false),
            Err(why) => (why.duration(), true),
        };
        let (seconds, part) = (since.as_secs() as i64, since.subsec_nanos());
        match (before, part) {
            (false, _) => Instant { seconds, nanoseconds: part },
            (true, 0) => Instant { seconds: -seconds, nanoseconds: 0 },
            (true, _) => Instant { seconds: -seconds - 1, nanoseconds: 1_000_000_000 - part },
        }
    }
}

/// Names the prayer in force at an instant, by the row's day alone.
pub fn prayer_at(order: &[u8], row: u32, at: Instant) -> Result<Option<Prayer>, Refused> {
    let said = unsafe { raw::katchidul_prayer_at(order.as_ptr(), order.len(), row, at.seconds, at.nanoseconds) };
    refused_or(said.number, said.place, Prayer::from_number(said.prayer))
}

/// Names the next prayer; after FajrTomorrow it is FajrTomorrow itself.
pub fn next_at(order: &[u8], row: u32, at: Instant) -> Result<Prayer, Refused> {
    let said = unsafe { raw::katchidul_next_at(order.as_ptr(), order.len(), row, at.seconds, at.nanoseconds) };
    refused_or(said.number, said.place, ())?;
    Ok(chosen(Prayer::from_number(said.prayer)))
}

/// Tells the time until the next prayer, in hours and minutes.
pub fn remaining_at(order: &[u8], row: u32, at: Instant) -> Result<(u32, u32), Refused> {
    let said = unsafe { raw::katchidul_remaining_at(order.as_ptr(), order.len(), row, at.seconds, at.nanoseconds) };
    refused_or(said.number, said.place, (said.hours, said.minutes))
}

// ---- a row and a page

/// Writes a row's line with its newline: 119 bytes, or 131 of a Ramadan sheet.
pub fn write_row(order: &[u8], row: u32) -> Result<String, Refused> {
    let mut line = vec![0; RAMADAN_ROW_BYTES];
    let said = unsafe { raw::katchidul_write_row(order.as_ptr(), order.len(), row, line.as_mut_ptr(), line.len()) };
    refused_or(said.number, said.place, ())?;
    let length = line.iter().position(|&byte| byte == b'\n').map_or(0, |at| at + 1);
    line.truncate(length);
    Ok(String::from_utf8_lossy(&line).into_owned())
}

/// Cells of braille, a byte each and 39 a row, and the dots that they punch.
#[derive(Clone, Debug, PartialEq, Eq)]
pub struct Cells {
    pub cells: Vec<u8>,
    pub rows: u32,
    pub dots: u32,
}

/// Writes a row in braille.
pub fn write_cells(order: &[u8], row: u32) -> Result<Cells, Refused> {
    let mut cells = vec![0; ROW_CELLS];
    let said = unsafe { raw::katchidul_write_cells(order.as_ptr(), order.len(), row, cells.as_mut_ptr(), cells.len()) };
    refused_or(said.number, said.place, Cells { cells, rows: said.rows, dots: said.dots })
}

/// Writes a page in braille. Pages count from 1.
pub fn write_page(order: &[u8], page: u32) -> Result<Cells, Refused> {
    let mut cells = vec![0; ROW_CELLS * PAGE_ROWS];
    let said = unsafe { raw::katchidul_write_page(order.as_ptr(), order.len(), page, 0, cells.as_mut_ptr(), cells.len()) };
    cells.truncate(ROW_CELLS * said.rows as usize);
    refused_or(said.number, said.place, Cells { cells, rows: said.rows, dots: said.dots })
}

// ---- the print queue

/// The print queue. An empty one is the default.
#[derive(Clone, Copy, Debug, Default, PartialEq, Eq)]
pub struct Queue(raw::Queue);

/// A job whose page is to be sent, and its pages left after that one.
#[derive(Clone, Copy, Debug, PartialEq, Eq)]
pub struct Turn {
    pub id: u32,
    pub pages: u32,
}

impl Queue {
    /// How many jobs wait.
    pub fn jobs(&self) -> u32 {
        self.0.jobs
    }

    /// Puts a job at the back. A refused job leaves the queue as it was.
    pub fn join(&mut self, id: u32, pages: u32) -> Result<(), Refused> {
        let said = unsafe { raw::katchidul_join(self.0, id, pages) };
        self.0 = said.queue;
        refused_or(said.number, said.place, ())
    }

    /// Takes a page from the job at the front, or nothing if no job waits.
    pub fn turn(&mut self) -> Option<Turn> {
        let said = unsafe { raw::katchidul_turn(self.0) };
        self.0 = said.queue;
        (said.id != 0).then_some(Turn { id: said.id, pages: said.pages })
    }
}

// ---- a job's log

/// What a record says of a page.
#[derive(Clone, Copy, Debug, PartialEq, Eq)]
pub enum Record {
    Sent = 1,
    Done = 2,
}

/// A job's log: its bytes, which the host makes lasting, and what they say. Pages 1 to finished are done, 1 to sent are sent.
#[derive(Clone, Debug, Default, PartialEq, Eq)]
pub struct Log {
    pub bytes: Vec<u8>,
    pub finished: u32,
    pub sent: u32,
}

fn log_of(said: raw::Log, mut bytes: Vec<u8>) -> Result<Log, Refused> {
    refused_or(said.number, said.place, ())?;
    bytes.truncate(said.used);
    Ok(Log { bytes, finished: said.finished, sent: said.sent })
}

/// Reads a log.
pub fn read_log(log: &[u8]) -> Result<Log, Refused> {
    let said = unsafe { raw::katchidul_read_log(log.as_ptr(), log.len(), log.len()) };
    log_of(said, log.to_vec())
}

/// Appends a record to a log for which the host keeps `size` bytes. Make the bytes lasting before the page is sent.
pub fn append(log: &[u8], record: Record, page: u32, size: usize) -> Result<Log, Refused> {
    let mut first = log.to_vec();
    first.resize(size.max(log.len()), 0);
    let mut second = vec![0; size];
    let (from, to) = (first.as_mut_ptr(), second.as_mut_ptr());
    let said = unsafe { raw::katchidul_append(from, first.len(), log.len(), record as u32, page, to, second.len()) };
    let moved = said.moved == 1;
    log_of(said, if moved { second } else { first })
}

/// Restarts after a failure, by the number of pages that the embosser has finished. Pages finished + 1 to sent go out again.
pub fn restart(log: &[u8], count: u32, size: usize) -> Result<Log, Refused> {
    let mut second = vec![0; size];
    let said = unsafe { raw::katchidul_restart(log.as_ptr(), log.len(), log.len(), count, second.as_mut_ptr(), second.len()) };
    log_of(said, second)
}

// ---- a coordinate

/// A coordinate as on the map.
#[derive(Clone, Copy, Debug, PartialEq, Eq)]
pub struct Map {
    pub south_or_west: bool,
    pub degrees: u32,
    pub minutes: u32,
    pub seconds: u32,
    pub hundredths: u32,
}

fn map_of(said: raw::Map) -> Result<Map, Refused> {
    let raw::Map { number, place, sign, degrees, minutes, seconds, hundredths } = said;
    refused_or(number, place, Map { south_or_west: sign == 1, degrees, minutes, seconds, hundredths })
}

/// A latitude as on the map, to the nearest hundredth of a second.
pub fn map_latitude(degrees: f64) -> Result<Map, Refused> {
    map_of(unsafe { raw::katchidul_map_latitude(degrees) })
}

/// A longitude as on the map, to the nearest hundredth of a second.
pub fn map_longitude(degrees: f64) -> Result<Map, Refused> {
    map_of(unsafe { raw::katchidul_map_longitude(degrees) })
}
