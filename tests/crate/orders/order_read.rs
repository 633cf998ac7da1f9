//! Document 01's reading of an order ("The order"), in plain Rust and from its text alone: katchidul_read_order is compared with it.
use crate::day_crate::Refusal;
use crate::day_draw::{NaiveDate, Settings, METHODS};
use chrono::{Datelike, Duration};
use std::ops::{Range, RangeInclusive};
use std::sync::OnceLock;

/// The tags of a coordinate as a float and as on the map.
pub const FORMS: [(u8, u8); 2] = [(4, 18), (5, 19)];

/// Over this an order is refused unread.
pub const LONGEST: usize = 1_024;
pub const LAST_TAG: u8 = 20;

/// What an order asks for. A missing tag whose value comes from the method is none.
#[derive(Debug)]
pub struct Asked {
    pub town: Range<usize>,
    pub date: NaiveDate,
    pub rows: u32,
    pub latitude: f64,
    pub longitude: f64,
    pub method: u32,
    pub madhab: u32,
    pub high_latitude_rule: u32,
    pub rounding: Option<u32>,
    pub shafaq: u32,
    pub minutes: [i32; 6],
    pub fajr_angle: Option<f64>,
    pub isha_angle: Option<f64>,
    pub isha_interval: Option<i32>,
    pub carry: u32,
    pub clock: i32,
    pub southern: u32,
    /// Minutes of imsak and shift, if the sheet is Ramadan's.
    pub ramadan: Option<(i32, i32)>,
}

impl Asked {
    /// The minutes from imsak to Fajr, if the sheet is Ramadan's.
    pub fn imsak(&self) -> Option<i32> {
        self.ramadan.map(|(imsak, _)| imsak)
    }

    /// The crate has no part in what tags 15 and 17 change.
    pub fn is_the_crates(&self) -> bool {
        self.carry == 0 && self.southern == 0
    }

    /// The crate's own `Method::parameters`, and on them what the tags set.
    pub fn settings(&self) -> Settings {
        let brought = METHODS[self.method as usize].parameters();
        let [fajr, sunrise, dhuhr, asr, maghrib, isha] = self.minutes;
        Settings {
            method: self.method,
            madhab: self.madhab,
            high_latitude_rule: self.high_latitude_rule,
            rounding: self.rounding.unwrap_or(brought.rounding as u32),
            shafaq: self.shafaq,
            fajr,
            sunrise,
            dhuhr,
            asr,
            maghrib,
            isha,
            isha_interval: self.isha_interval.unwrap_or(brought.isha_interval),
            fajr_angle: self.fajr_angle.unwrap_or(brought.fajr_angle),
            isha_angle: self.isha_angle.unwrap_or(brought.isha_angle),
        }
    }
}

fn refused<T>(number: u32, place: usize) -> Result<T, Refusal> {
    Err(Refusal { number, place: place as u32 })
}

/// The lengths that a tag's value can have; none for an unknown tag.
pub fn lengths(tag: u8) -> Option<RangeInclusive<usize>> {
    match tag {
        1 => Some(1..=40),
        2 => Some(4..=4),
        3 => Some(1..=2),
        6..=10 | 15 | 17 => Some(1..=1),
        4 | 5 | 12 | 13 => Some(8..=8),
        11 => Some(12..=12),
        14 | 16 | 20 => Some(2..=2),
        18 | 19 => Some(5..=5),
        _ => None,
    }
}

/// Where each tag's value is, by tag.
type Values = [Option<Range<usize>>; LAST_TAG as usize + 1];

/// Field by field, the checks of one in the order of the paper's sentence.
fn fields(order: &[u8]) -> Result<Values, Refusal> {
    let mut values = Values::default();
    let mut at = 0;
    while at < order.len() {
        let left = order.len() - at;
        if left < 3 {
            return refused(1, at);
        }
        let tag = order[at];
        let length = order[at + 1] as usize * 256 + order[at + 2] as usize;
        let Some(lengths) = lengths(tag) else { return refused(2, at) };
        if values[tag as usize].is_some() {
            return refused(3, at);
        }
        if !lengths.contains(&length) {
            return refused(2, at);
        }
        if left < 3 + length {
            return refused(1, at);
        }
        values[tag as usize] = Some(at + 3..at + 3 + length);
        at += 3 + length;
    }
    Ok(values)
}

/// Month 9, day 1 of the tabular calendar, by its rule: year by year from day 1 of year 1, Julian Day 1948439.5, which chrono counts as day 227015.
/// Those of the years that an order may have, and of some around them.
pub fn ramadan_starts() -> &'static [NaiveDate] {
    static STARTS: OnceLock<Vec<NaiveDate>> = OnceLock::new();
    STARTS.get_or_init(|| {
        let is_leap = |year: i32| [2, 5, 7, 10, 13, 16, 18, 21, 24, 26, 29].contains(&(year % 30));
        let (mut day, mut starts) = (227_015, vec![]);
        for year in 1..1_700 {
            starts.push(NaiveDate::from_num_days_from_ce_opt(day + 4 * (30 + 29)).unwrap());
            day += 354 + is_leap(year) as i32;
        }
        starts
    })
}

/// An order whose fields are whole; a missing tag's value is none.
struct Whole<'a> {
    order: &'a [u8],
    values: Values,
}

impl Whole<'_> {
    fn bytes(&self, tag: u8) -> Option<&[u8]> {
        self.values[tag as usize].clone().map(|value| &self.order[value])
    }

    fn byte(&self, tag: u8, allowed: RangeInclusive<u8>) -> Result<Option<u32>, Refusal> {
        match self.bytes(tag) {
            Some(value) if !allowed.contains(&value[0]) => refused(5, tag as usize),
            value => Ok(value.map(|value| value[0] as u32)),
        }
    }

    /// A NaN is in no range; -0.0 is read as 0.0.
    fn float(&self, tag: u8, allowed: RangeInclusive<f64>) -> Result<Option<f64>, Refusal> {
        let value = self.bytes(tag).map(|value| f64::from_be_bytes(value.try_into().unwrap()));
        match value {
            Some(value) if !allowed.contains(&value) => refused(5, tag as usize),
            Some(value) if value == 0.0 => Ok(Some(0.0)),
            value => Ok(value),
        }
    }

    fn town(&self) -> Result<Range<usize>, Refusal> {
        if self.bytes(1).unwrap().iter().any(|byte| !(32..=126).contains(byte)) {
            return refused(5, 1);
        }
        Ok(self.values[1].clone().unwrap())
    }

    /// By chrono's calendar, which is not the port's.
    fn date(&self) -> Result<NaiveDate, Refusal> {
        let value = self.bytes(2).unwrap();
        let year = u16::from_be_bytes([value[0], value[1]]) as i32;
        match NaiveDate::from_ymd_opt(year, value[2] as u32, value[3] as u32) {
            Some(date) if (1900..=2199).contains(&date.year()) => Ok(date),
            _ => refused(5, 2),
        }
    }

    fn rows(&self, date: NaiveDate) -> Result<u32, Refusal> {
        let value = self.bytes(3).unwrap();
        let rows = value.iter().fold(0, |rows, byte| rows * 256 + *byte as u32);
        if !(1..=if value.len() == 1 { 250 } else { 400 }).contains(&rows) {
            return refused(5, 3);
        }
        if self.bytes(20).is_some() && rows != 30 {
            return refused(5, 3);
        }
        let last_row = date + Duration::days(rows as i64 - 1);
        if last_row > NaiveDate::from_ymd_opt(2199, 12, 31).unwrap() {
            return refused(5, 3);
        }
        Ok(rows)
    }

    fn minutes(&self) -> Result<Option<[i32; 6]>, Refusal> {
        let Some(value) = self.bytes(11) else { return Ok(None) };
        let minutes = [0, 1, 2, 3, 4, 5].map(|prayer| i16::from_be_bytes([value[2 * prayer], value[2 * prayer + 1]]) as i32);
        if minutes.iter().any(|minutes| !(-720..=720).contains(minutes)) {
            return refused(5, 11);
        }
        Ok(Some(minutes))
    }

    fn isha_interval(&self) -> Result<Option<i32>, Refusal> {
        let interval = self.bytes(14).map(|value| u16::from_be_bytes([value[0], value[1]]) as i32);
        if interval.is_some_and(|interval| interval > 1_440) {
            return refused(5, 14);
        }
        Ok(interval)
    }

    fn clock(&self) -> Result<i32, Refusal> {
        let clock = self.bytes(16).map_or(0, |value| i16::from_be_bytes([value[0], value[1]]) as i32);
        if !(-840..=840).contains(&clock) {
            return refused(5, 16);
        }
        Ok(clock)
    }

    /// Sign, degrees, minutes, seconds and hundredths. Both whole numbers are exact as floats, so that the quotient is rounded once.
    fn on_map(&self, tag: u8, most: u32) -> Result<Option<f64>, Refusal> {
        let Some(&[sign, degrees, minutes, seconds, hundredths]) = self.bytes(tag) else { return Ok(None) };
        let count = degrees as u32 * 360_000 + minutes as u32 * 6_000 + seconds as u32 * 100 + hundredths as u32;
        if sign > 1 || minutes > 59 || seconds > 59 || hundredths > 99 || count > most * 360_000 {
            return refused(5, tag as usize);
        }
        let size = count as f64 / 360_000.0;
        Ok(Some(if sign == 1 && count > 0 { -size } else { size }))
    }

    fn ramadan(&self) -> Result<Option<(i32, i32)>, Refusal> {
        let Some(&[imsak, stored]) = self.bytes(20) else { return Ok(None) };
        if imsak > 30 || stored > 2 {
            return refused(5, 20);
        }
        Ok(Some((imsak as i32, stored as i32 - 1)))
    }

    /// The ranges by rising tag, which is the order in which a struct's fields are worked out. A coordinate as on the map and what makes a
    /// Ramadan sheet come last, and after them the sheet's start.
    fn ranges(&self) -> Result<Asked, Refusal> {
        let (town, date) = (self.town()?, self.date()?);
        let asked = Asked {
            town,
            date,
            rows: self.rows(date)?,
            latitude: self.float(4, -90.0..=90.0)?.unwrap_or_default(),
            longitude: self.float(5, -180.0..=180.0)?.unwrap_or_default(),
            method: self.byte(6, 0..=12)?.unwrap(),
            madhab: self.byte(7, 1..=2)?.unwrap_or(1),
            high_latitude_rule: self.byte(8, 0..=2)?.unwrap_or(0),
            rounding: self.byte(9, 0..=2)?,
            shafaq: self.byte(10, 0..=2)?.unwrap_or(0),
            minutes: self.minutes()?.unwrap_or([0; 6]),
            fajr_angle: self.float(12, 0.0..=30.0)?,
            isha_angle: self.float(13, 0.0..=30.0)?,
            isha_interval: self.isha_interval()?,
            carry: self.byte(15, 0..=1)?.unwrap_or(0),
            clock: self.clock()?,
            southern: self.byte(17, 0..=1)?.unwrap_or(0),
            ramadan: None,
        };
        let latitude = self.on_map(18, 90)?.unwrap_or(asked.latitude);
        let longitude = self.on_map(19, 180)?.unwrap_or(asked.longitude);
        let ramadan = self.ramadan()?;
        if ramadan.is_some_and(|(_, shift)| !ramadan_starts().contains(&(date - Duration::days(shift as i64)))) {
            return refused(18, 2);
        }
        Ok(Asked { latitude, longitude, ramadan, ..asked })
    }
}

pub fn read(order: &[u8]) -> Result<Asked, Refusal> {
    if order.len() > LONGEST {
        return refused(1, 0);
    }
    let values = fields(order)?;
    let has = |tag: u8| values[tag as usize].is_some();
    for tag in 1..=6 {
        let either = FORMS.iter().any(|&(float, map)| float == tag && has(map));
        if !has(tag) && !either {
            return refused(4, tag as usize);
        }
    }
    for (float, map) in FORMS {
        if has(float) && has(map) {
            return refused(15, map as usize);
        }
    }
    Whole { order, values }.ranges()
}
