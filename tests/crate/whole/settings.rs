//! Parameters by document 01's numbers, as a copy of the crate has them. Each copy's types are its own, so each gets the function by this macro.
macro_rules! parameters_of {
    ($salah:ident) => {
        pub fn parameters(s: &crate::day_draw::Settings) -> $salah::models::parameters::Parameters {
            use $salah::models::adjustments::TimeAdjustment;
            use $salah::models::high_altitude_rule::HighLatitudeRule::*;
            use $salah::models::madhab::Madhab::*;
            use $salah::models::method::Method::*;
            use $salah::models::rounding::Rounding::{self, Nearest, Up};
            use $salah::models::shafaq::Shafaq::*;
            let methods = [
                MuslimWorldLeague, Egyptian, Karachi, UmmAlQura, Dubai, MoonsightingCommittee, NorthAmerica, Kuwait, Qatar, Singapore,
                Tehran, Turkey, Other,
            ];
            let minutes = [s.fajr, s.sunrise, s.dhuhr, s.asr, s.maghrib, s.isha].map(|minutes| minutes as i64);
            let [fajr, sunrise, dhuhr, asr, maghrib, isha] = minutes;
            let mut parameters = methods[s.method as usize].parameters();
            parameters.madhab = [Shafi, Hanafi][s.madhab as usize - 1];
            parameters.high_latitude_rule = [MiddleOfTheNight, SeventhOfTheNight, TwilightAngle][s.high_latitude_rule as usize];
            parameters.rounding = [Nearest, Up, Rounding::None][s.rounding as usize];
            parameters.shafaq = [General, Ahmer, Abyad][s.shafaq as usize];
            parameters.adjustments = TimeAdjustment::new(fajr, sunrise, dhuhr, asr, maghrib, isha);
            parameters.fajr_angle = s.fajr_angle;
            parameters.isha_angle = s.isha_angle;
            parameters.isha_interval = s.isha_interval;
            parameters
        }
    };
}
pub(crate) use parameters_of;
