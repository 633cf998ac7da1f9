//! The list of orders with the crate's answers, for the host's test: see tests/crate/list-orders for its lines.
use crate::day_crate::Refusal;
use crate::day_draw::{midnight, Instant, NONE};
use crate::draw::{Case, Draw};
use crate::order_read::{read, Asked};
use crate::orders::hexadecimal;
use crate::plain::by_an_edge;
use crate::row_crate::plain;
use crate::row_numbers::{by_plain, used};
use chrono::{Datelike, Duration, NaiveDate};
use salah_plain::schedule::{access, PrayerTimes};

/// Longer orders would fill the list.
const LONGEST: usize = 160;
const ROWS: u32 = 10;

/// Whether no last bit of a sine can change the row: none of the hour numbers that it uses is in a zone, or near an edge of rounding.
fn is_certain(asked: &Asked, date: NaiveDate, refused: Option<Refusal>) -> bool {
    let settings = asked.settings();
    let case = Case {
        year: date.year() as u32,
        month: date.month(),
        day: date.day(),
        latitude: asked.latitude,
        longitude: asked.longitude,
        fajr: -settings.fajr_angle,
        isha: -settings.isha_angle,
    };
    let (numbers, zones) = by_plain(&case, &settings);
    let used = used(&case, &settings, refused);
    (0..numbers.len()).all(|number| !used[number] || !zones[number].contains(&true) && !by_an_edge(numbers[number]))
}

fn print_instant(times: &PrayerTimes, start: i64, at: Instant) {
    let found = plain::in_force(times, at);
    let (hours, minutes) = found.remaining.unwrap_or_default();
    let (current, next) = (found.current.unwrap_or(NONE), found.next.unwrap_or(NONE));
    println!("at {} {} {current} {next} {hours} {minutes}", at.seconds - start, at.nanoseconds);
}

fn print_row(draw: &mut Draw, asked: &Asked, row: u32) {
    let date = asked.date + Duration::days(row as i64);
    let start = midnight(date);
    let day = plain::row(date, asked.latitude, asked.longitude, &asked.settings());
    if !is_certain(asked, date, day.err()) {
        return;
    }
    match day {
        Ok(times) => {
            let nine = access::nine(&times);
            println!("row {row}{}", nine.map(|time| format!(" {}", time - start)).concat());
            print_instant(&times, start, draw.instant_near(&nine));
        }
        Err(Refusal { number, place }) => println!("lacks {row} {number} {place}"),
    }
}

/// The first row, the last, and some between.
fn rows(draw: &mut Draw, asked: &Asked) -> Vec<u32> {
    let mut rows: Vec<u32> = (2..ROWS).map(|_| draw.below(asked.rows as u64) as u32).chain([0, asked.rows - 1]).collect();
    rows.sort();
    rows.dedup();
    rows
}

pub fn list_orders(seed: u64, orders: u64) {
    let (mut seeds, mut printed) = (Draw(seed), 0);
    while printed < orders {
        let mut draw = Draw(seeds.bits());
        let order = draw.order().1;
        if order.len() > LONGEST {
            continue;
        }
        printed += 1;
        match read(&order) {
            Ok(asked) => {
                println!("order {} {}", midnight(asked.date) / 86_400, hexadecimal(&order));
                rows(&mut draw, &asked).into_iter().for_each(|row| print_row(&mut draw, &asked, row));
            }
            Err(Refusal { number, place }) => println!("refused {number} {place} {}", hexadecimal(&order)),
        }
    }
}
