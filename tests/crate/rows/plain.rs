//! Whole rows against the crate as it is, whose sin, cos and the others are the platform's. A row that differs is explained only by
//! its hour numbers: from the crate's numbers the port must give the crate's row, and each number that moved a time must be in a zone
//! of document 01, or differ from the other's only in its last bits, with an edge of setting_hour between the two.
use crate::day_crate::Refusal;
use crate::day_draw::{DayCase, Settings};
use crate::day_port::{self, Rules};
use crate::draw::{Case, Draw};
use crate::row_crate::plain;
use crate::row_numbers::{by_plain, by_port, used, NAMES};
use crate::rows::{self, date, Row};
use crate::steps::port_setting_hour;
use crate::summary::Line;
use salah_given::given::Numbers;
use salah_plain::schedule::access;

/// Hour numbers nearer than this differ by the functions' last bits.
const LAST_BITS: f64 = 1e-9;

/// As near to an edge as last bits bring a number.
pub const NEAR: f64 = 1e-13;

/// As in the sheet's header.
const TIMES: [&str; 9] = ["fajr", "sunrise", "dhuhr", "asr", "maghrib", "isha", "middle", "qiyam", "tomorrow"];

#[derive(PartialEq)]
pub enum Verdict {
    Equal,
    InZone,
    Listed,
    Unexplained,
}

#[derive(Default)]
pub struct Plain {
    print_zones: bool,
    rows: u64,
    in_zone: u64,
    listed: u64,
    unexplained: u64,
}

/// What the port's second stage makes of hour numbers.
fn from_numbers(c: &Case, settings: &Settings, numbers: Numbers) -> Row {
    let case = DayCase { numbers, date: date(c), latitude: c.latitude, settings: *settings };
    day_port::day(&case, Rules::default()).map(|times| times.0)
}

/// The half minute nearest to an hour number.
pub fn half_minute(number: f64) -> f64 {
    ((number * 60.0).floor() + 0.5) / 60.0
}

/// Where setting_hour's result jumps: at the half minutes, and where the date changes. The edge itself is worked in floats, here and
/// in setting_hour.
fn edge_between(a: f64, b: f64) -> bool {
    let edges = [half_minute(a), (a / 24.0).round() * 24.0];
    edges.iter().any(|edge| a.min(b) - NEAR <= *edge && *edge <= a.max(b) + NEAR)
}

/// Whether last bits can carry a number over an edge.
pub fn by_an_edge(number: f64) -> bool {
    edge_between(number - LAST_BITS, number + LAST_BITS)
}

/// A row that differs: the numbers of both sides, and by number whether it gave another time.
struct Differing {
    port: Numbers,
    by_crate: Numbers,
    moved: [bool; 13],
}

impl Plain {
    pub fn row(&mut self, c: &Case, settings: &Settings) -> Verdict {
        let ours = rows::by_port(c, settings, Rules::default());
        let theirs = plain::row(date(c), c.latitude, c.longitude, settings).map(|times| access::nine(&times));
        self.rows += 1;
        if ours == theirs {
            return Verdict::Equal;
        }
        let (verdict, numbers) = judge(c, settings, &ours, &theirs);
        match verdict {
            Verdict::InZone => {
                self.in_zone += 1;
                if self.print_zones {
                    print_row("in a zone", c, settings, &numbers, &ours, &theirs);
                }
            }
            Verdict::Listed => {
                self.listed += 1;
                print_row("listed", c, settings, &numbers, &ours, &theirs);
            }
            _ => {
                self.unexplained += 1;
                if self.unexplained <= 20 {
                    print_row("UNEXPLAINED", c, settings, &numbers, &ours, &theirs);
                }
            }
        }
        verdict
    }
}

fn judge(c: &Case, settings: &Settings, ours: &Row, theirs: &Row) -> (Verdict, Differing) {
    let (port, (by_crate, zones)) = (by_port(c, settings), by_plain(c, settings));
    let (our_use, their_use) = (used(c, settings, ours.err()), used(c, settings, theirs.err()));
    let mut moved = [false; 13];
    for number in 0..13 {
        moved[number] = (our_use[number] || their_use[number])
            && port_setting_hour(port[number]) != port_setting_hour(by_crate[number]);
    }
    let in_zone = |number: usize| zones[number].contains(&true);
    let near = |number: usize| (port[number] - by_crate[number]).abs() < LAST_BITS && edge_between(port[number], by_crate[number]);
    let mut moving = (0..13).filter(|&number| moved[number]);
    let stage_two = from_numbers(c, settings, port) == *ours && from_numbers(c, settings, by_crate) == *theirs;
    let verdict = if !stage_two || !moving.clone().all(|number| in_zone(number) || near(number)) {
        Verdict::Unexplained
    } else if moving.any(|number| !in_zone(number)) {
        Verdict::Listed
    } else {
        Verdict::InZone
    };
    (verdict, Differing { port, by_crate, moved })
}

fn said(row: &Row) -> String {
    match row {
        Ok(_) => "nine times".to_string(),
        Err(Refusal { number, place }) => format!("refused {number} day {place}"),
    }
}

/// The place and what moved: the hour numbers, the port's first, and by how much the port's times are later.
fn print_row(verdict: &str, c: &Case, settings: &Settings, numbers: &Differing, ours: &Row, theirs: &Row) {
    let Case { year, month, day, latitude, longitude, .. } = c;
    let Settings { method, fajr_angle, isha_angle, .. } = settings;
    print!("{verdict}: {year:04}-{month:02}-{day:02} latitude {latitude:?} longitude {longitude:?} method {method}");
    print!(" angles {fajr_angle:?} {isha_angle:?}:");
    for number in (0..13).filter(|&number| numbers.moved[number]) {
        print!(" {} {:?} {:?}", NAMES[number], numbers.port[number], numbers.by_crate[number]);
    }
    match (ours, theirs) {
        (Ok(ours), Ok(theirs)) => {
            for time in (0..9).filter(|&time| ours[time] != theirs[time]) {
                print!("; {} {:+} s", TIMES[time], ours[time] - theirs[time]);
            }
            println!();
        }
        _ => println!("; port {}, crate {}", said(ours), said(theirs)),
    }
}

pub fn plain_rows(seed: u64, rows: u64, print_zones: bool) -> Plain {
    let (mut draw, mut plain) = (Draw(seed), Plain { print_zones, ..Plain::default() });
    for _ in 0..rows {
        let (c, settings) = (draw.case(), draw.settings());
        plain.row(&c, &settings);
    }
    plain
}

impl Plain {
    pub fn line(&self, what: &'static str) -> Line {
        Line { what, compared: self.rows, in_zone: self.in_zone, listed: self.listed, unexplained: self.unexplained }
    }

    pub fn print(&self) {
        let Plain { rows, in_zone, listed, unexplained, .. } = self;
        println!("{rows} rows: {in_zone} differ in a zone, {listed} are listed, {unexplained} unexplained");
    }

    pub fn lines(&self) -> Vec<Line> {
        vec![self.line("rows as the crate is: nine times or refusal")]
    }
}
