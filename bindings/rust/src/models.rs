//! What a school chooses, and the prayers, by the names of the crate salah; and what the port added.

/// An enum by the header's numbers, which count from the first.
macro_rules! numbered {
    ($(#[$note:meta])* $name:ident from $first:literal: $($(#[$said:meta])* $case:ident),+) => {
        $(#[$note])*
        #[derive(Clone, Copy, Debug, PartialEq, Eq, Hash)]
        pub enum $name { $($(#[$said])* $case),+ }

        impl $name {
            const ALL: &'static [$name] = &[$($name::$case),+];

            /// The header's number.
            pub fn number(self) -> u32 {
                self as u32 + $first
            }

            /// The case of a number.
            pub fn from_number(number: u32) -> Option<$name> {
                Self::ALL.get(number.checked_sub($first)? as usize).copied()
            }
        }
    };
}
pub(crate) use numbered;

numbered!(
    /// A prayer, or a time in the list that tells which prayer is in force.
    Prayer from 1: Fajr, Sunrise, Dhuhr, Asr, Maghrib, Isha, Qiyam, FajrTomorrow
);
numbered!(
    /// An authority's angles, interval, rounding and minutes.
    Method from 0: MuslimWorldLeague, Egyptian, Karachi, UmmAlQura, Dubai, MoonsightingCommittee, NorthAmerica, Kuwait, Qatar, Singapore,
        Tehran, Turkey, Other
);
numbered!(
    /// Whose shadow is Asr's.
    Madhab from 1: Shafi, Hanafi
);
numbered!(
    /// How far Fajr and Isha may be from the sun in a short night.
    HighLatitudeRule from 0: MiddleOfTheNight, SeventhOfTheNight, TwilightAngle
);
numbered!(
    /// How a time becomes a whole minute.
    Rounding from 0: Nearest, Up, None
);
numbered!(
    /// The twilight that bounds Isha with the method MoonsightingCommittee.
    Shafaq from 0: General, Ahmer, Abyad
);
numbered!(
    /// What becomes of an hour number that rounds to hour 24.
    Carry from 0: Stops, Carries
);
numbered!(
    /// How the method MoonsightingCommittee counts the days of the season south of the equator.
    Southern from 0: Unreduced, StartsAgain
);

/// A prayer's own minutes.
#[derive(Clone, Copy, Debug, Default, PartialEq, Eq)]
pub struct TimeAdjustment {
    pub fajr: i32,
    pub sunrise: i32,
    pub dhuhr: i32,
    pub asr: i32,
    pub maghrib: i32,
    pub isha: i32,
}

/// The nine times of a day, in seconds from 1970-01-01T00:00:00 UTC on.
#[derive(Clone, Copy, Debug, PartialEq, Eq)]
pub struct PrayerTimes {
    pub fajr: i64,
    pub sunrise: i64,
    pub dhuhr: i64,
    pub asr: i64,
    pub maghrib: i64,
    pub isha: i64,
    pub middle_of_the_night: i64,
    pub qiyam: i64,
    pub fajr_tomorrow: i64,
}

impl PrayerTimes {
    pub fn time(&self, prayer: Prayer) -> i64 {
        match prayer {
            Prayer::Fajr => self.fajr,
            Prayer::Sunrise => self.sunrise,
            Prayer::Dhuhr => self.dhuhr,
            Prayer::Asr => self.asr,
            Prayer::Maghrib => self.maghrib,
            Prayer::Isha => self.isha,
            Prayer::Qiyam => self.qiyam,
            Prayer::FajrTomorrow => self.fajr_tomorrow,
        }
    }
}
