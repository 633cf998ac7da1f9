//! The sheet that document 01 asks for ("The sheet"), from an order's reading and the crate's times on our functions.
use crate::day_crate::Refusal;
use crate::day_draw::midnight;
use crate::order_owed::Order;
use crate::rows::Row;
use chrono::{Duration, NaiveDate};
use salah_probes::schedule::access;

const TIMES: &str = "fajr sunrise dhuhr asr maghrib isha middle qiyam tomorrow";

/// Signed days from the row's date, floored, and the time of that day.
fn time_text(seconds: i64) -> String {
    let (days, seconds) = (seconds.div_euclid(86_400), seconds.rem_euclid(86_400));
    format!("{days:+}T{:02}:{:02}:{:02}", seconds / 3600, seconds / 60 % 60, seconds % 60)
}

/// A row's line, with its newline. If the sheet is Ramadan's, imsak is before Fajr, and earlier by its minutes.
pub fn row_text(date: NaiveDate, row: &Row, imsak: Option<i32>) -> String {
    let day = date.format("%Y-%m-%d");
    match row {
        Ok(times) => {
            let imsak = imsak.map(|minutes| times[0] - 60 * minutes as i64);
            let times = imsak.iter().chain(times).map(|time| format!(" {}", time_text(time - midnight(date))));
            format!("{day}{}\n", times.collect::<String>())
        }
        Err(Refusal { number, place }) => format!("{day} refused {number} day {place}\n"),
    }
}

pub fn sheet(order: &Order) -> Vec<u8> {
    let asked = match &order.reading {
        Ok(asked) => asked,
        Err(Refusal { number, place }) => return format!("order refused {number} place {place}\n").into_bytes(),
    };
    let mut sheet = order.bytes[asked.town.clone()].to_vec();
    let imsak = asked.imsak();
    sheet.extend(format!("\ndate {}{TIMES}\n", if imsak.is_some() { "imsak " } else { "" }).bytes());
    for row in 0..asked.rows {
        let times = order.day(row).map(|times| access::nine(&times));
        sheet.extend(row_text(asked.date + Duration::days(row as i64), &times, imsak).bytes());
    }
    sheet
}
