//! The root of each copy of the crate: its modules, and what the installed chrono lacks.
#![allow(warnings)]

pub mod astronomy {
    pub mod ops;
    pub mod solar;
    pub mod unit;
}
pub mod models {
    pub mod adjustments;
    pub mod high_altitude_rule;
    pub mod madhab;
    pub mod method;
    pub mod parameters;
    pub mod prayer;
    pub mod rounding;
    pub mod shafaq;
}
pub mod schedule;

/// chrono 0.4.23 has no `NaiveDateTime::and_utc`.
pub trait AndUtc {
    fn and_utc(self) -> chrono::DateTime<chrono::Utc>;
}

impl AndUtc for chrono::NaiveDateTime {
    fn and_utc(self) -> chrono::DateTime<chrono::Utc> {
        chrono::TimeZone::from_utc_datetime(&chrono::Utc, &self)
    }
}
