//! A module of each copy of the crate: a given instant, in place of the clock that schedule.rs reads.
use chrono::{DateTime, TimeZone, Utc};
use std::cell::Cell;

thread_local! {
    static NOW: Cell<DateTime<Utc>> = Cell::new(DateTime::default());
}

pub fn set_now(seconds: i64, nanoseconds: u32) {
    NOW.set(Utc.timestamp_opt(seconds, nanoseconds).unwrap())
}

/// In place of `Utc::now`.
pub fn now() -> DateTime<Utc> {
    NOW.get()
}
