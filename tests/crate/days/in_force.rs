//! The prayer in force as a copy of the crate answers. Each copy's types are its own, so each gets the function by this macro.

/// The prayer in force, the next one, hours and minutes to it. Prayers count from 1.
#[derive(Debug, Clone, Copy, PartialEq)]
pub struct InForce {
    pub current: Option<u32>,
    pub next: Option<u32>,
    pub remaining: Option<(u32, u32)>,
}

macro_rules! in_force_of {
    ($salah:ident) => {
        /// The crate's `next` and `time_remaining` panic if no prayer is in force.
        pub fn in_force(times: &$salah::schedule::PrayerTimes, at: crate::day_draw::Instant) -> crate::in_force::InForce {
            use std::panic::{catch_unwind, AssertUnwindSafe};
            $salah::clock::set_now(at.seconds, at.nanoseconds);
            let number = |prayer: $salah::models::prayer::Prayer| prayer as u32 + 1;
            crate::in_force::InForce {
                current: $salah::schedule::access::current_time(times).map(number),
                next: catch_unwind(AssertUnwindSafe(|| times.next())).ok().map(number),
                remaining: catch_unwind(AssertUnwindSafe(|| times.time_remaining())).ok(),
            }
        }
    };
}
pub(crate) use in_force_of;
