//! Sheets as text: the port's whole sheet of an order beside the crate's times and a plain loop that writes them.
use crate::day_draw::midnight;
use crate::orders::{orders, Order};
use crate::rounds::beside;
use crate::sheet_port::{write_sheet, LONGEST};
use chrono::Datelike;
use salah_plain::schedule::{access, PrayerTimes};
use std::fmt::Write;
use std::hint::black_box;

const HEADER: &str = "date fajr sunrise dhuhr asr maghrib isha middle qiyam tomorrow";
const ROUNDS: usize = 51;

/// The crate's sheet, in the order's own form.
pub fn by_crate(order: &Order) -> String {
    let mut sheet = String::with_capacity(64 + HEADER.len() + 119 * order.rows as usize);
    writeln!(sheet, "{}\n{HEADER}", order.town).unwrap();
    for row in 0..order.rows {
        let date = order.date_of(row);
        let times = access::nine(&PrayerTimes::new(date, order.coordinates, order.parameters));
        write!(sheet, "{:04}-{:02}-{:02}", date.year(), date.month(), date.day()).unwrap();
        for time in times {
            let seconds = time - midnight(date);
            let (days, seconds) = (seconds.div_euclid(86_400), seconds.rem_euclid(86_400));
            write!(sheet, " {days:+}T{:02}:{:02}:{:02}", seconds / 3600, seconds / 60 % 60, seconds % 60).unwrap();
        }
        sheet.push('\n');
    }
    sheet
}

pub fn by_port(orders: &[Order]) {
    let mut buffer = vec![0; LONGEST];
    for order in orders {
        black_box(write_sheet(black_box(&order.bytes), &mut buffer));
    }
}

/// The sheets of so many orders of so many rows each, as often as makes a round of some milliseconds.
fn sheets(what: &str, count: usize, rows: u8) {
    let orders = orders(count, rows);
    let times = 2000usize.div_ceil(count * rows as usize);
    let mut buffer = vec![0; LONGEST];
    let mut port = || {
        for order in orders.iter().cycle().take(times * count) {
            black_box(write_sheet(black_box(&order.bytes), &mut buffer));
        }
    };
    let mut other = || {
        for order in orders.iter().cycle().take(times * count) {
            black_box(by_crate(black_box(order)));
        }
    };
    beside(ROUNDS, &mut port, &mut other).print_rate(what, times * count * rows as usize);
}

pub fn whole() {
    sheets("a row of a sheet of 250, as text", 8, 250);
}

/// What a row costs in a sheet of few and of many, all of one order.
pub fn growing() {
    for rows in [1, 10, 100, 250] {
        sheets(&format!("a row of one order with {rows}, as text"), 1, rows);
    }
}

/// Both sides print the same sheets.
pub fn are_equal() -> bool {
    let mut buffer = vec![0; LONGEST];
    orders(20, 250).iter().all(|order| {
        let length = write_sheet(&order.bytes, &mut buffer);
        buffer[..length] == *by_crate(order).as_bytes()
    })
}
