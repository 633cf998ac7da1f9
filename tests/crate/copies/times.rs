
/// Appended to the copies of schedule.rs that are compared whole, for what it keeps to itself.
pub mod access {
    use super::*;

    /// Seconds from 1970, in the order of the struct.
    pub fn nine(times: &PrayerTimes) -> [i64; 9] {
        [
            times.fajr,
            times.sunrise,
            times.dhuhr,
            times.asr,
            times.maghrib,
            times.isha,
            times.middle_of_the_night,
            times.qiyam,
            times.fajr_tomorrow,
        ]
        .map(|time| time.timestamp())
    }

    /// At the instant that the clock is given.
    pub fn current_time(times: &PrayerTimes) -> Option<Prayer> {
        times.current_time(crate::clock::now())
    }
}
