//! The list of the crate's days for replay: see tests/crate/list-days for a line's form.
use crate::day_crate;
use crate::day_draw::{midnight, DayCase, Instant, Settings, NONE};
use crate::days::{answer, without_wrapping};
use crate::draw::Draw;
use chrono::{Datelike, NaiveDate};
use salah_given::given::Numbers;
use salah_given::schedule::{access, PrayerTimes};

const INSTANTS: usize = 4;

/// What is added to a line's times and instants, so that none is negative. To 0h the difference of the two is added, so that 0h and a time
/// have the right sum.
const LATER: i64 = 50_000_000;
const SINCE: i64 = 10_000_000_000;

fn print_case(c: &DayCase) {
    let s = &c.settings;
    print!("{:04}{:02}{:02}", c.date.year(), c.date.month(), c.date.day());
    for number in c.numbers.iter().chain(&[c.latitude, s.fajr_angle, s.isha_angle]) {
        print!(" {:016x}", number.to_bits());
    }
    print!(" {:04}{}{}{}{}", s.method, s.madhab, s.high_latitude_rule, s.rounding, s.shafaq);
    for (first, second) in [(s.fajr, s.sunrise), (s.dhuhr, s.asr), (s.maghrib, s.isha)] {
        print!(" {:04}{:04}", first + 1000, second + 1000);
    }
    print!(" {:08} {:016x}", s.isha_interval, midnight(c.date) + SINCE - LATER);
}

fn print_instant(times: &PrayerTimes, at: Instant) {
    let found = day_crate::in_force(times, at);
    let (hours, minutes) = found.remaining.unwrap_or_default();
    let nanoseconds = (at.seconds + SINCE) as u64 * 1_000_000_000 + at.nanoseconds as u64;
    print!(" {nanoseconds:016x} {}{}{hours:04}{minutes:02}", found.current.unwrap_or(NONE), found.next.unwrap_or(NONE));
}

fn print_line(c: &DayCase, mut instant: impl FnMut(&[i64; 9], usize) -> Instant) {
    print_case(c);
    match day_crate::day(c) {
        Ok(times) => {
            let nine = access::nine(&times);
            print!(" {:08}", 0);
            for time in nine {
                print!(" {:08}", time - midnight(c.date) + LATER);
            }
            for n in 0..INSTANTS {
                print_instant(&times, instant(&nine, n));
            }
        }
        Err(refusal) => {
            print!(" {:08}{}", refusal.number * 10 + refusal.place, " 00000000".repeat(9));
            print!("{}", " 0000000000000000 00000000".repeat(INSTANTS));
        }
    }
    println!();
}

/// A plain day, by MuslimWorldLeague.
fn plain() -> DayCase {
    let numbers: Numbers = [12.0, 6.0, 18.0, 12.0, 6.0, 18.0, 12.0, 6.0, 18.0, 4.5, 15.5, 19.5, 4.5];
    let preset = Settings {
        method: 0, madhab: 1, high_latitude_rule: 0, rounding: 0, shafaq: 0, fajr: 0, sunrise: 0, dhuhr: 0, asr: 0, maghrib: 0, isha: 0,
        isha_interval: 0, fajr_angle: 18.0, isha_angle: 17.0,
    };
    DayCase { numbers, date: NaiveDate::from_ymd_opt(2026, 11, 15).unwrap(), latitude: 21.4, settings: preset }
}

/// Document 01's marked instants, those beside them, and its marked hour numbers as the transit's. Returns how many lines they are.
fn print_marked() -> u64 {
    let at = |seconds, nanoseconds| Instant { seconds, nanoseconds };
    let half = 500_000_000;
    print_line(&plain(), |t, n| [at(t[0] - 1, half), at(t[0] - 1, 0), at(t[1] - 3599, 0), at(t[8], 0)][n]);
    print_line(&plain(), |t, n| [at(t[1] - 30, 0), at(t[1] - 3630, 0), at(t[8] - 1, 1), at(t[8] + 1, 0)][n]);
    let marked = [5.5, -0.5, 24.25, -25.0, 0.0, 23.995, 48.0];
    for number in marked {
        let mut c = plain();
        c.numbers[0] = number;
        print_line(&c, |t, n| at(t[2 * n], 0));
    }
    2 + marked.len() as u64
}

/// The instants of a list stay within its digits.
fn within(draw: &mut Draw, nine: &[i64; 9]) -> Instant {
    loop {
        let at = draw.instant_near(nine);
        if at.seconds.abs() < SINCE * 4 / 5 {
            return at;
        }
    }
}

/// Days whose answer is a listed difference are left out.
pub fn list_days(seed: u64, lines: u64) {
    day_crate::keep_panics();
    let (mut draw, mut printed) = (Draw(seed), print_marked());
    while printed < lines {
        let c = draw.day_case();
        let found = answer(day_crate::day(&c).map(|times| access::nine(&times)));
        if without_wrapping(&c).is_none_or(|without| without == found) {
            print_line(&c, |nine, _| within(&mut draw, nine));
            printed += 1;
        }
    }
}
