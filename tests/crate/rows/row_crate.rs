//! What a copy of the crate gives, from date, place and parameters on. A panic counts as a refusal, number 0 if document 01 has none for
//! it. Each copy's types are its own, so each gets its functions by this macro.

macro_rules! rows_of {
    ($salah:ident) => {
        use crate::day_crate::{refused_number, Refusal};
        use crate::day_draw::{midnight, NaiveDate, Settings};
        use chrono::{TimeZone, Utc};
        use std::panic::catch_unwind;
        use $salah::astronomy::solar::SolarTime;
        use $salah::astronomy::unit::Coordinates;
        use $salah::schedule::PrayerTimes;

        const SOLAR: &str = include_str!(concat!("../../", stringify!($salah), "/src/astronomy/solar.rs"));

        crate::settings::parameters_of!($salah);

        pub fn row(date: NaiveDate, latitude: f64, longitude: f64, settings: &Settings) -> Result<PrayerTimes, Refusal> {
            let (coordinates, parameters) = (Coordinates::new(latitude, longitude), parameters(settings));
            catch_unwind(|| PrayerTimes::new(date, coordinates, parameters)).map_err(|_| refusal(date, coordinates))
        }

        /// Right after `PrayerTimes::new` panicked. Its panic tells the number but not the day: that is the first whose sun panics by
        /// itself, which must be with the same number.
        fn refusal(date: NaiveDate, coordinates: Coordinates) -> Refusal {
            let number = refused_number(SOLAR);
            let has_no_sun = |day: &u32| {
                let day = Utc.timestamp_opt(midnight(date) + *day as i64 * 86_400, 0).unwrap();
                catch_unwind(|| SolarTime::new(day, coordinates)).is_err()
            };
            match (0..3).find(has_no_sun) {
                Some(place) if refused_number(SOLAR) == number => Refusal { number, place },
                _ => Refusal { number: 0, place: 0 },
            }
        }
    };
}

/// On our functions.
pub mod on_probes {
    rows_of!(salah_probes);
    crate::in_force::in_force_of!(salah_probes);
}

/// On our functions too, with the southern count that starts again.
pub mod southern {
    rows_of!(salah_southern);
}

/// As it is.
pub mod plain {
    rows_of!(salah_plain);
    crate::in_force::in_force_of!(salah_plain);
}
