//! Days and the prayer in force: from equal hour numbers the crate's answers and the port's must be equal.
use crate::day_crate::{self, Refusal};
use crate::day_draw::{midnight, DayCase, Instant, METHODS, NONE};
use crate::day_port::{self, ProbeTimes, Rules};
use crate::draw::Draw;
use crate::in_force::InForce;
use crate::summary::Line;
use std::ops::Range;
use salah_given::given;
use salah_given::schedule::{access, PrayerTimes};

/// What is compared, a row of the table each. The nine times come first.
const ROWS: [&str; 17] = [
    "Fajr", "sunrise", "dhuhr", "Asr", "Maghrib", "Isha", "middle of the night", "qiyam", "tomorrow's Fajr", "refused or not",
    "refusal's number", "refusal's day", "prayer in force", "next prayer", "time remaining", "a method's parameters",
    "carried",
];
const REFUSED_OR_NOT: usize = 9;
const NUMBER: usize = 10;
const DAY: usize = 11;
const CURRENT: usize = 12;
const NEXT: usize = 13;
const REMAINING: usize = 14;
const PRESET: usize = 15;
const CARRIED: usize = 16;

/// From here on the crate's u32 hour can wrap: the one difference that document 01 lists.
const LISTED_FROM: f64 = 4294967296.0;

#[derive(Default, Clone, Copy)]
struct Count {
    equal: u64,
    listed: u64,
    different: u64,
}

#[derive(Default)]
pub struct Days {
    counts: [Count; 17],
    printed: u64,
    unknown_panics: u64,
    with_times: u64,
    /// The crate's answers: days refused, by number and day, and instants by the prayer in force, none first.
    refused: [[u64; 3]; 3],
    in_force: [u64; 9],
}

/// A day's answer in the rows of the table; a row that it has nothing for is none.
pub type Answer = [Option<i64>; 12];

pub fn answer(day: Result<[i64; 9], Refusal>) -> Answer {
    let mut rows = [None; 12];
    rows[REFUSED_OR_NOT] = Some(day.is_err() as i64);
    match day {
        Ok(times) => rows[..9].copy_from_slice(&times.map(Some)),
        Err(refusal) => (rows[NUMBER], rows[DAY]) = (Some(refusal.number as i64), Some(refusal.place as i64)),
    }
    rows
}

/// The crate's result without the numbers from 2^32 on, if the day has any. If this is the port's result, a difference is the listed one.
pub fn without_wrapping(c: &DayCase) -> Option<Answer> {
    let numbers = c.numbers.map(|number| if number >= LISTED_FROM { f64::NAN } else { number });
    let wrapping = c.numbers.iter().any(|&number| number >= LISTED_FROM && number.is_finite());
    wrapping.then(|| answer(day_crate::day(&DayCase { numbers, ..*c }).map(|times| access::nine(&times))))
}

impl Days {
    fn count(&mut self, row: usize, equal: bool, listed: bool, what: impl FnOnce() -> String) {
        let count = &mut self.counts[row];
        match (equal, listed) {
            (true, _) => count.equal += 1,
            (false, true) => count.listed += 1,
            (false, false) => {
                count.different += 1;
                self.printed += 1;
                if self.printed <= 20 {
                    println!("DIFFERENT, {}: {}", ROWS[row], what());
                }
            }
        }
    }

    /// Counts a day's results, and returns the times if both have all nine alike.
    fn day(&mut self, c: &DayCase) -> Option<(PrayerTimes, ProbeTimes)> {
        let without = without_wrapping(c);
        let (ours, theirs) = (day_port::day(c, Rules::default()), day_crate::day(c));
        let (our_day, their_day) = (ours.map(|times| times.0), theirs.map(|times| access::nine(&times)));
        let (port, by_crate) = (answer(our_day), answer(their_day));
        match theirs {
            Err(Refusal { number: 0, .. }) => self.unknown_panics += 1,
            Err(refusal) => self.refused[refusal.number as usize - 6][refusal.place as usize] += 1,
            Ok(_) => {}
        }
        let listed = without == Some(port);
        for row in 0..12 {
            if port[row].is_some() && by_crate[row].is_some() {
                self.count(row, port[row] == by_crate[row], listed, || {
                    format!("port {our_day:?}, crate {their_day:?}, 0h {}, {c:?}", midnight(c.date))
                });
            }
        }
        // if no number needs carrying, the rule that carries gives what the crate gives
        if c.numbers.iter().all(|number| day_port::needs_no_carrying(*number)) {
            let carried = answer(day_port::day(c, Rules { carry: 1, ..Rules::default() }).map(|times| times.0));
            self.count(CARRIED, carried == by_crate, listed, || format!("port {carried:?}, crate {their_day:?}, {c:?}"));
        }
        match (ours, theirs) {
            (Ok(ours), Ok(theirs)) if port == by_crate => Some((theirs, ours)),
            _ => None,
        }
    }

    fn instant(&mut self, at: Instant, nine: &[i64; 9], ours: InForce, theirs: InForce) {
        let what = || format!("port {ours:?}, crate {theirs:?}, {at:?}, times {nine:?}");
        self.in_force[theirs.current.unwrap_or(NONE) as usize] += 1;
        self.count(CURRENT, ours.current == theirs.current, false, what);
        self.count(NEXT, ours.next == theirs.next, false, what);
        self.count(REMAINING, ours.remaining == theirs.remaining, false, what);
    }

    /// What each method brings, as the numbers that an order could set.
    fn presets(&mut self) {
        for method in 0..METHODS.len() {
            let (ours, theirs) = (day_port::preset(method as u32), METHODS[method].parameters());
            let same = day_crate::parameters(&ours) == theirs && ours.method == method as u32;
            self.count(PRESET, same, false, || format!("port {ours:?}, crate {theirs:?}"));
        }
    }

    pub fn print(&self) {
        println!("{} days with times", self.with_times);
        println!("days refused, on day 0, 1 and 2: 6 {:?}, 7 {:?}, 8 {:?}", self.refused[0], self.refused[1], self.refused[2]);
        println!("instants by the prayer in force, none, then from Fajr to FajrTomorrow: {:?}\n", self.in_force);
        println!("from equal arguments      compared       equal    listed  different");
        for (name, n) in ROWS.iter().zip(&self.counts) {
            let compared = n.equal + n.listed + n.different;
            println!("{name:<22}{compared:>12}{:>12}{:>10}{:>11}", n.equal, n.listed, n.different);
        }
    }

    fn line(&self, what: &'static str, rows: Range<usize>) -> Line {
        let mut line = Line::exact(what, 0, 0);
        for count in &self.counts[rows] {
            line.compared += count.equal + count.listed + count.different;
            line.listed += count.listed;
            line.unexplained += count.different;
        }
        line
    }

    /// A panic of the crate at no time of the sun, or a call that got no number, says nothing of the two and must not pass.
    pub fn lines(&self) -> Vec<Line> {
        let strayed = self.unknown_panics + given::strayed();
        let mut lines = vec![
            self.line("from equal hour numbers: times", 0..REFUSED_OR_NOT),
            self.line("from equal hour numbers: refusals", REFUSED_OR_NOT..CURRENT),
            self.line("from equal times: prayer in force, next", CURRENT..REMAINING),
            self.line("from equal times: time remaining", REMAINING..PRESET),
            self.line("a method's parameters", PRESET..CARRIED),
            self.line("from equal hour numbers: the rule that carries, where nothing needs it", CARRIED..ROWS.len()),
        ];
        if strayed > 0 {
            lines.push(Line::exact("from equal hour numbers: calls that stray", strayed, strayed));
        }
        lines
    }
}

pub fn days(seed: u64, size: u64, instants: u64) -> Days {
    let (mut draw, mut days) = (Draw(seed), Days::default());
    days.presets();
    for _ in 0..size {
        let c = draw.day_case();
        // so that the days drawn do not depend on results
        let mut near = Draw(draw.bits());
        if let Some((theirs, ours)) = days.day(&c) {
            days.with_times += 1;
            for _ in 0..instants {
                let at = near.instant_near(&ours.0);
                days.instant(at, &ours.0, day_port::in_force(ours, at), day_crate::in_force(&theirs, at));
            }
        }
    }
    days
}
