//! The orders that are compared: good ones here, damaged ones in order_damage.rs; the same for the same seed.
use crate::day_draw::{NaiveDate, METHODS};
use crate::draw::Draw;
use crate::order_read::{lengths, ramadan_starts, FORMS};
use chrono::{Datelike, Duration};

/// A field as it is written; the length is free of the value's, so that a damaged order can lie.
#[derive(Clone)]
pub struct Field {
    pub tag: u8,
    pub length: u16,
    pub value: Vec<u8>,
}

impl Field {
    pub fn new(tag: u8, value: &[u8]) -> Field {
        Field { tag, length: value.len() as u16, value: value.to_vec() }
    }

    fn bytes(&self) -> Vec<u8> {
        let [high, low] = self.length.to_be_bytes();
        [&[self.tag, high, low], &self.value[..]].concat()
    }
}

/// The bytes of an order.
pub fn written(fields: &[Field]) -> Vec<u8> {
    fields.iter().flat_map(Field::bytes).collect()
}

pub fn date_value(year: i32, month: u32, day: u32) -> [u8; 4] {
    let [high, low] = (year as u16).to_be_bytes();
    [high, low, month as u8, day as u8]
}

/// The last date that a row can have.
pub fn last_date() -> NaiveDate {
    NaiveDate::from_ymd_opt(2199, 12, 31).unwrap()
}

impl Draw {
    pub fn index(&mut self, count: usize) -> usize {
        self.below(count as u64) as usize
    }

    pub fn coin(&mut self) -> bool {
        self.below(2) == 0
    }

    fn town(&mut self) -> Vec<u8> {
        let length = [1, 40, 2, 39, 1 + self.below(40)][self.index(5)];
        (0..length).map(|_| [32, 126, 32 + self.below(95) as u8][self.index(3)]).collect()
    }

    /// Row 0's date and the rows: both ends of the calendar, leap days, the last row on the last date, and any.
    fn dates(&mut self) -> (NaiveDate, i64) {
        let rows = [1, 250, 400, 2, 1 + self.below(400) as i64][self.index(5)];
        let latest = last_date() - Duration::days(rows - 1);
        let date = match self.below(12) {
            0 => latest,
            1 => latest - Duration::days(self.below(3) as i64),
            2 => NaiveDate::from_ymd_opt(1900, 1, 1 + self.below(3) as u32).unwrap(),
            3 => self.near_leap_day(),
            _ => self.date(),
        };
        (date.min(latest), rows)
    }

    /// Up to 250 rows in one byte or in two, more in two.
    pub fn rows_value(&mut self, rows: i64) -> Vec<u8> {
        let two = (rows as u16).to_be_bytes();
        if rows <= 250 && self.coin() { two[1..].to_vec() } else { two.to_vec() }
    }

    /// The end of a February, and the days around it.
    fn near_leap_day(&mut self) -> NaiveDate {
        let year = [1900, 2000, 2100, 2096, 1904, self.year() as i32][self.index(6)];
        NaiveDate::from_ymd_opt(year, 2, 27).unwrap() + Duration::days(self.below(4) as i64)
    }

    fn order_angle(&mut self, brought: f64) -> f64 {
        if self.below(8) == 0 { -0.0 } else { self.angle(&[brought]) }
    }

    /// A coordinate as a float, or as the hundredth next to it on the map.
    fn coordinate(&mut self, (float, map): (u8, u8), degrees: f64) -> Field {
        if self.coin() {
            return Field::new(float, &degrees.to_be_bytes());
        }
        let count = (degrees.abs() * 360_000.0).round() as u32;
        let parts = [degrees.is_sign_negative() as u32, count / 360_000, count / 6_000 % 60, count / 100 % 60, count % 100];
        Field::new(map, &parts.map(|part| part as u8))
    }

    /// A first day of Ramadan, moved by a shift that is stored plus 1, and its rows.
    fn ramadan(&mut self, stored: u8) -> (NaiveDate, i64) {
        let starts: Vec<_> = ramadan_starts().iter().filter(|start| (1900..2200).contains(&start.year())).collect();
        (*starts[self.index(starts.len())] + Duration::days(stored as i64 - 1), 30)
    }

    /// The fields that an order must have, a coordinate in either form; those of a Ramadan sheet if its tag is there.
    fn must_have(&mut self, method: usize, ramadan: Option<[u8; 2]>) -> Vec<Field> {
        let (town, dates) = (self.town(), self.dates());
        let (date, rows) = ramadan.map_or(dates, |[_, stored]| self.ramadan(stored));
        let place = self.case_on(date);
        vec![
            Field::new(1, &town),
            Field::new(2, &date_value(date.year(), date.month(), date.day())),
            Field::new(3, &self.rows_value(rows)),
            self.coordinate(FORMS[0], place.latitude),
            self.coordinate(FORMS[1], place.longitude),
            Field::new(6, &[method as u8]),
        ]
    }

    /// A good field of a tag that an order may leave out, from 7 to 17. Those that choose another rule than the crate's choose the crate's.
    pub fn may_have(&mut self, tag: u8, method: usize) -> Field {
        let brought = METHODS[method].parameters();
        match tag {
            7 => Field::new(tag, &[1 + self.below(2) as u8]),
            8..=10 => Field::new(tag, &[self.below(3) as u8]),
            11 => Field::new(tag, &[0; 6].map(|_| (self.minutes() as i16).to_be_bytes()).concat()),
            12 => Field::new(tag, &self.order_angle(brought.fajr_angle).to_be_bytes()),
            13 => Field::new(tag, &self.order_angle(brought.isha_angle).to_be_bytes()),
            14 => Field::new(tag, &([0, 1, 90, 1_440, self.below(1_441)][self.index(5)] as u16).to_be_bytes()),
            16 => Field::new(tag, &([0, 840, 1_680, self.below(1_681)][self.index(4)] as i16 - 840).to_be_bytes()),
            _ => Field::new(tag, &[0]),
        }
    }

    fn shuffle(&mut self, fields: &mut [Field]) {
        for left in (1..fields.len()).rev() {
            fields.swap(left, self.index(left + 1));
        }
    }

    /// A good order: all methods, optional fields there or missing, half of them in another order than that of the tags.
    pub fn good_fields(&mut self) -> Vec<Field> {
        let method = self.index(METHODS.len());
        let tag_20 = [self.below(31) as u8, self.below(3) as u8];
        let ramadan = if self.below(8) == 0 { Some(tag_20) } else { None };
        let mut fields = self.must_have(method, ramadan);
        // none of them, all of them, or each by a coin
        let (some, all) = (self.below(8) > 0, self.below(8) == 0);
        for tag in (7..=17).filter(|tag| lengths(*tag).is_some()) {
            let field = self.may_have(tag, method);
            if all || some && self.coin() {
                fields.push(field);
            }
        }
        fields.extend(ramadan.map(|value| Field::new(20, &value)));
        if self.coin() {
            self.shuffle(&mut fields);
        }
        fields
    }
}
