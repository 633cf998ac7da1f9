//! What the crate gives: its own `PrayerTimes` from given hour numbers. A panic counts as a refusal, 0 if document 01 has none for it.
use crate::day_draw::DayCase;
use crate::in_force::in_force_of;
use crate::settings::parameters_of;
use salah_given::astronomy::unit::Coordinates;
use salah_given::given;
use salah_given::schedule::PrayerTimes;
use std::cell::RefCell;
use std::panic::{catch_unwind, set_hook};

const SOLAR: &str = include_str!("../../salah_given/src/astronomy/solar.rs");

/// Document 01's numbers and places; (0, 0) is a panic that it has none for.
#[derive(Debug, Clone, Copy, PartialEq)]
pub struct Refusal {
    pub number: u32,
    pub place: u32,
}

thread_local! {
    /// File and line of the last panic.
    static PANIC: RefCell<(String, u32)> = const { RefCell::new((String::new(), 0)) };
}

/// Panics are results here: their places are kept and nothing is printed.
pub fn keep_panics() {
    set_hook(Box::new(|info| {
        let place = info.location().map(|place| (place.file().to_string(), place.line()));
        PANIC.with_borrow_mut(|last| *last = place.unwrap_or_default());
    }));
}

/// By the line of `SolarTime::new` that panicked, in the text of solar.rs; 0 if it was another.
pub fn refused_number(solar: &str) -> u32 {
    let (file, line) = PANIC.with_borrow(|last| last.clone());
    let text = solar.lines().nth(line as usize - 1).unwrap_or_default().trim_start();
    let number = ["transit: ", "sunrise: ", "sunset: "].iter().position(|field| text.starts_with(field));
    match number {
        Some(number) if file.ends_with("solar.rs") && text.ends_with(".unwrap(),") => 6 + number as u32,
        _ => 0,
    }
}

/// The day is known by how many suns were begun.
fn refusal() -> Refusal {
    match refused_number(SOLAR) {
        0 => Refusal { number: 0, place: 0 },
        number => Refusal { number, place: given::suns_begun() as u32 - 1 },
    }
}

parameters_of!(salah_given);
in_force_of!(salah_given);

pub fn day(c: &DayCase) -> Result<PrayerTimes, Refusal> {
    let parameters = parameters(&c.settings);
    // the longitude goes into the hour numbers alone, which are given
    let coordinates = Coordinates::new(c.latitude, 0.0);
    given::begin(c.numbers, c.settings.fajr_angle, c.settings.isha_angle);
    catch_unwind(|| PrayerTimes::new(c.date, coordinates, parameters)).map_err(|_| refusal())
}
