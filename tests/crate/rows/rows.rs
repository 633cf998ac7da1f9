//! Whole rows: from equal dates, places and parameters the port's answers and those of the crate on our functions must be equal.
use crate::day_crate::Refusal;
use crate::day_draw::{NaiveDate, Settings};
use crate::day_port::{self, Rules};
use crate::draw::{Case, Draw};
use crate::row_crate::{on_probes, southern};
use crate::summary::Line;
use salah_probes::schedule::access;

/// MoonsightingCommittee.
const SEASONAL: u32 = 5;

pub type Row = Result<[i64; 9], Refusal>;

pub fn date(c: &Case) -> NaiveDate {
    NaiveDate::from_ymd_opt(c.year as i32, c.month, c.day).unwrap()
}

fn by_crate(c: &Case, settings: &Settings) -> Row {
    on_probes::row(date(c), c.latitude, c.longitude, settings).map(|times| access::nine(&times))
}

fn by_southern_crate(c: &Case, settings: &Settings) -> Row {
    southern::row(date(c), c.latitude, c.longitude, settings).map(|times| salah_southern::schedule::access::nine(&times))
}

pub fn by_port(c: &Case, settings: &Settings, rules: Rules) -> Row {
    day_port::row(c, settings, rules).map(|times| times.0)
}

pub struct Rows {
    rows: u64,
    refused: u64,
    different: u64,
    /// By the southern count that starts again: rows that it moves, and rows that differ.
    moved: u64,
    southern: u64,
}

pub fn rows(seed: u64, rows: u64) -> Rows {
    let (mut draw, mut refused, mut different, mut moved, mut southern) = (Draw(seed), 0u64, 0u64, 0u64, 0u64);
    for _ in 0..rows {
        let (c, settings) = (draw.case(), draw.settings());
        let (ours, theirs) = (by_port(&c, &settings, Rules::default()), by_crate(&c, &settings));
        let again = (by_port(&c, &settings, Rules { southern: 1, ..Rules::default() }), by_southern_crate(&c, &settings));
        moved += (again.0 != ours) as u64;
        // only the method that uses the season moves, and only in the south
        let may_move = settings.method == SEASONAL && c.latitude < 0.0;
        let wrong = again.0 != again.1 || again.0 != ours && !may_move;
        southern += wrong as u64;
        if wrong && southern <= 20 {
            println!("DIFFERENT in the south: port {:?}, crate {:?}, {c:?}, {settings:?}", again.0, again.1);
        }
        refused += theirs.is_err() as u64;
        different += (ours != theirs) as u64;
        if ours != theirs && different <= 20 {
            println!("DIFFERENT: port {ours:?}, crate {theirs:?}, {c:?}, {settings:?}");
        }
    }
    Rows { rows, refused, different, moved, southern }
}

impl Rows {
    pub fn print(&self) {
        let Rows { rows, refused, different, moved, southern } = self;
        println!("{rows} rows: {} with nine times, {refused} refused; {different} different", rows - refused);
        println!("with the southern count that starts again {moved} rows move; {southern} different");
    }

    pub fn lines(&self) -> Vec<Line> {
        vec![
            Line::exact("rows on our fdlibm: nine times or refusal", self.rows, self.different),
            Line::exact("rows on our fdlibm: with the southern count that starts again", self.rows, self.southern),
        ]
    }
}
