//! The orders that are timed: ordinary places, where every row has its times, so that the crate does not panic.
use crate::draw::Draw;
use crate::order_draw::{date_value, written, Field};
use crate::order_port::work_day;
use crate::order_read::{read, Asked};
use chrono::{Datelike, Duration, NaiveDate};
use salah_plain::astronomy::unit::Coordinates;
use salah_plain::models::parameters::Parameters;

crate::settings::parameters_of!(salah_plain);

/// An order's bytes, and what the crate is handed in their place.
pub struct Order {
    pub bytes: Vec<u8>,
    pub town: String,
    pub date: NaiveDate,
    pub rows: u32,
    pub coordinates: Coordinates,
    pub parameters: Parameters,
}

impl Order {
    pub fn new(bytes: Vec<u8>) -> Order {
        let asked: Asked = read(&bytes).unwrap();
        Order {
            town: String::from_utf8(bytes[asked.town.clone()].to_vec()).unwrap(),
            date: asked.date,
            rows: asked.rows,
            coordinates: Coordinates::new(asked.latitude, asked.longitude),
            parameters: parameters(&asked.settings()),
            bytes,
        }
    }

    pub fn date_of(&self, row: u32) -> NaiveDate {
        self.date + Duration::days(row as i64)
    }

    fn has_all_times(&self) -> bool {
        (0..self.rows).all(|row| work_day(&self.bytes, row).number == 0)
    }
}

/// What a school sends: the six fields, and in every other order its madhab and its own minutes.
fn drawn(draw: &mut Draw, number: usize, rows: u8) -> Order {
    let date = draw.date().min(NaiveDate::from_ymd_opt(2199, 1, 1).unwrap());
    let method = number % 13;
    let mut fields = vec![
        Field::new(1, b"Northern Cape"),
        Field::new(2, &date_value(date.year(), date.month(), date.day())),
        Field::new(3, &[rows]),
        Field::new(4, &draw.between(-50.0, 50.0).to_be_bytes()),
        Field::new(5, &draw.between(-180.0, 180.0).to_be_bytes()),
        Field::new(6, &[method as u8]),
    ];
    if number % 2 == 0 {
        fields.push(draw.may_have(7, method));
        fields.push(draw.may_have(11, method));
    }
    Order::new(written(&fields))
}

/// The same in every run.
pub fn orders(count: usize, rows: u8) -> Vec<Order> {
    let mut draw = Draw(1);
    (0..)
        .map(|number| drawn(&mut draw, number, rows))
        .filter(Order::has_all_times)
        .take(count)
        .collect()
}
