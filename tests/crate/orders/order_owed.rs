//! What the calls owe on an order's bytes: the reading by order_read.rs, the day and the prayer in force by the crate on our functions,
//! and document 01's order of refusals in a call (instant, order, row, day, 11).
use crate::day_crate::Refusal;
use crate::day_draw::{Instant, NONE};
use crate::order_port::{KatchidulOrder, KatchidulPrayer, KatchidulRemaining};
use crate::order_read::{read, Asked};
use crate::row_crate::on_probes;
use chrono::{Datelike, Duration};
use salah_probes::schedule::PrayerTimes;

/// An instant's whole seconds are no farther from 1970 than this.
pub const FARTHEST: i64 = 1_000_000_000_000;

pub struct Order<'a> {
    pub bytes: &'a [u8],
    pub reading: Result<Asked, Refusal>,
}

impl Order<'_> {
    pub fn new(bytes: &[u8]) -> Order<'_> {
        Order { bytes, reading: read(bytes) }
    }

    pub fn read_owed(&self) -> KatchidulOrder {
        match &self.reading {
            Ok(asked) => asked.into(),
            Err(refusal) => (*refusal).into(),
        }
    }

    /// The order is refused first, then a row that it lacks, then the day.
    pub fn day(&self, row: u32) -> Result<PrayerTimes, Refusal> {
        let asked = self.reading.as_ref().map_err(|refusal| *refusal)?;
        if row >= asked.rows {
            return Err(Refusal { number: 5, place: 3 });
        }
        let date = asked.date + Duration::days(row as i64);
        on_probes::row(date, asked.latitude, asked.longitude, &asked.settings())
    }
}

impl From<&Asked> for KatchidulOrder {
    fn from(asked: &Asked) -> KatchidulOrder {
        let settings = asked.settings();
        KatchidulOrder {
            number: 0,
            place: 0,
            town_at: asked.town.start as u32,
            town_length: asked.town.len() as u32,
            year: asked.date.year() as u32,
            month: asked.date.month(),
            day: asked.date.day(),
            rows: asked.rows,
            latitude: asked.latitude,
            longitude: asked.longitude,
            fajr_angle: settings.fajr_angle,
            isha_angle: settings.isha_angle,
            method: asked.method,
            madhab: asked.madhab,
            high_latitude_rule: asked.high_latitude_rule,
            rounding: settings.rounding,
            shafaq: asked.shafaq,
            isha_interval: settings.isha_interval as u32,
            minutes: asked.minutes,
            choices: [
                asked.carry as i32,
                asked.clock,
                asked.southern as i32,
                asked.ramadan.is_some() as i32,
                asked.ramadan.map_or(0, |(imsak, _)| imsak),
                asked.ramadan.map_or(0, |(_, shift)| shift),
            ],
        }
    }
}

/// The answers of the three calls on an instant.
#[derive(Debug, PartialEq)]
pub struct InstantAnswers {
    pub prayer: KatchidulPrayer,
    pub next: KatchidulPrayer,
    pub remaining: KatchidulRemaining,
}

impl InstantAnswers {
    pub fn new(day: &Result<PrayerTimes, Refusal>, at: Instant) -> InstantAnswers {
        if at.seconds < -FARTHEST || at.seconds > FARTHEST || at.nanoseconds > 999_999_999 {
            return InstantAnswers::refused(Refusal { number: 10, place: 0 });
        }
        match day {
            Ok(times) => InstantAnswers::of_times(times, at),
            Err(refusal) => InstantAnswers::refused(*refusal),
        }
    }

    fn refused(refusal: Refusal) -> InstantAnswers {
        InstantAnswers { prayer: refusal.into(), next: refusal.into(), remaining: refusal.into() }
    }

    /// None in force is a result; then the next one and the time until it are refused.
    fn of_times(times: &PrayerTimes, at: Instant) -> InstantAnswers {
        let found = on_probes::in_force(times, at);
        let (number, place) = (0, 0);
        let none = Refusal { number: 11, place };
        InstantAnswers {
            prayer: KatchidulPrayer { number, place, prayer: found.current.unwrap_or(NONE) },
            next: found.next.map_or(none.into(), |prayer| KatchidulPrayer { number, place, prayer }),
            remaining: found.remaining.map_or(none.into(), |(hours, minutes)| KatchidulRemaining { number, place, hours, minutes }),
        }
    }
}
