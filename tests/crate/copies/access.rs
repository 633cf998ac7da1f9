
/// Appended to the copies of solar.rs: the hour numbers, which the crate turns into times but does not return, and the values that decide
/// document 01's zones. Each expression is the crate's.
pub mod access {
    use super::*;

    /// The altitude of sunrise and sunset in `SolarTime::new`.
    pub const HORIZON: f64 = -50.0 / 60.0;

    /// `setting_hour` on the day with a number from 1970-01-01, in seconds.
    pub fn setting_hour(value: f64, day: i32) -> Option<i64> {
        let date = Utc.timestamp_opt(day as i64 * 86400, 0).unwrap();
        SolarTime::setting_hour(value, &date).map(|time| time.timestamp())
    }

    /// A place's sun on a date, without its times, so that it exists also if `SolarTime::new` panics.
    pub struct Day(SolarTime);

    impl Day {
        pub fn new(year: u32, month: u32, day: u32, latitude: f64, longitude: f64) -> Day {
            let coordinates = Coordinates::new(latitude, longitude);
            let today = Utc.with_ymd_and_hms(year as i32, month, day, 0, 0, 0).single().unwrap();
            let prev_solar = SolarCoordinates::new(today.yesterday().julian_day());
            let solar = SolarCoordinates::new(today.julian_day());
            let next_solar = SolarCoordinates::new(today.tomorrow().julian_day());
            let approx_transit = ops::approximate_transit(
                coordinates.longitude_angle(),
                solar.apparent_sidereal_time,
                solar.right_ascension,
            );
            Day(SolarTime {
                date: today,
                observer: coordinates,
                solar: solar,
                transit: today,
                sunrise: today,
                sunset: today,
                prev_solar: prev_solar,
                next_solar: next_solar,
                approx_transit: approx_transit,
            })
        }

        pub fn transit(&self) -> f64 {
            ops::corrected_transit(
                self.0.approx_transit,
                self.0.observer.longitude_angle(),
                self.0.solar.apparent_sidereal_time,
                self.0.solar.right_ascension,
                self.0.prev_solar.right_ascension,
                self.0.next_solar.right_ascension,
            )
        }

        /// The hour number of `time_for_solar_angle`, and with `HORIZON` those of sunrise and sunset.
        pub fn angle(&self, angle: f64, after_transit: bool) -> f64 {
            ops::corrected_hour_angle(
                self.0.approx_transit,
                Angle::new(angle),
                self.0.observer,
                after_transit,
                self.0.solar.apparent_sidereal_time,
                self.0.solar.right_ascension,
                self.0.prev_solar.right_ascension,
                self.0.next_solar.right_ascension,
                self.0.solar.declination,
                self.0.prev_solar.declination,
                self.0.next_solar.declination,
            )
        }

        /// The angle that `afternoon` passes to `time_for_solar_angle`, after transit.
        pub fn afternoon_angle(&self, shadow_length: f64) -> f64 {
            let absolute_degrees = (self.0.observer.latitude - self.0.solar.declination.degrees).abs();
            let tangent = Angle::new(absolute_degrees);
            let inverse = shadow_length + tangent.radians().tan();
            Angle::from_radians((1.0 / inverse).atan()).degrees
        }

        pub fn transit_fraction(&self) -> f64 {
            self.0.approx_transit
        }

        pub fn declination(&self) -> f64 {
            self.0.solar.declination.degrees
        }

        /// The arc cosine's argument and the sine of `adjusted_angles` in `ops::corrected_hour_angle`.
        pub fn critical(&self, angle: f64, after_transit: bool) -> (f64, f64) {
            let (sun, solar) = (&self.0, &self.0.solar);
            let angle = Angle::new(angle);
            let longitude_angle = sun.observer.longitude_angle() * Angle::new(-1.0);
            let term1 = angle.radians().sin()
                - (sun.observer.latitude_angle().radians().sin() * solar.declination.radians().sin());
            let term2 = sun.observer.latitude_angle().radians().cos() * solar.declination.radians().cos();
            let term_angle = Angle::from_radians((term1 / term2).acos());
            let adjusted_approx_transit = if after_transit {
                sun.approx_transit + (term_angle.degrees / 360.0)
            } else {
                sun.approx_transit - (term_angle.degrees / 360.0)
            };
            let plane_angle =
                Angle::new(solar.apparent_sidereal_time.degrees + (360.985647 * adjusted_approx_transit)).unwound();
            let interpolated_angles = ops::interpolate_angles(
                solar.right_ascension,
                sun.prev_solar.right_ascension,
                sun.next_solar.right_ascension,
                adjusted_approx_transit,
            )
            .unwound();
            let adjusted_angles = plane_angle - longitude_angle - interpolated_angles;
            (term1 / term2, adjusted_angles.radians().sin())
        }

        /// Whether the crate's own calls give the times of the hour numbers above, so that nothing here differs from what the crate
        /// works out. `SolarTime::new` is not called if it would panic.
        pub fn is_the_crates(&self, before: f64, after: f64, shadow_length: f64) -> bool {
            let set = |hours: f64| SolarTime::setting_hour(hours, &self.0.date);
            let (transit, sunrise, sunset) =
                (set(self.transit()), set(self.angle(HORIZON, false)), set(self.angle(HORIZON, true)));
            if transit.is_none() || sunrise.is_none() || sunset.is_none() {
                return true;
            }
            let own = SolarTime::new(self.0.date, self.0.observer);
            let afternoon = self.afternoon_angle(shadow_length);
            Some(own.transit) == transit
                && Some(own.sunrise) == sunrise
                && Some(own.sunset) == sunset
                && own.approx_transit.to_bits() == self.0.approx_transit.to_bits()
                && own.time_for_solar_angle(Angle::new(before), false).ok() == set(self.angle(before, false))
                && own.time_for_solar_angle(Angle::new(after), true).ok() == set(self.angle(after, true))
                && own.afternoon(shadow_length).ok() == set(self.angle(afternoon, true))
        }
    }
}
