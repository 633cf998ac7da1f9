//! What salah_probes calls in place of the platform's functions.

#[link(name = "probes", kind = "static")]
extern "C" {
    fn probe_sin(x: f64) -> f64;
    fn probe_cos(x: f64) -> f64;
    fn probe_tan(x: f64) -> f64;
    fn probe_asin(x: f64) -> f64;
    fn probe_acos(x: f64) -> f64;
    fn probe_atan(x: f64) -> f64;
    fn probe_atan2(y: f64, x: f64) -> f64;
}

pub trait Probes {
    fn probe_sin(self) -> f64;
    fn probe_cos(self) -> f64;
    fn probe_tan(self) -> f64;
    fn probe_asin(self) -> f64;
    fn probe_acos(self) -> f64;
    fn probe_atan(self) -> f64;
    fn probe_atan2(self, x: f64) -> f64;
    fn probe_powf(self, power: f64) -> f64;
}

impl Probes for f64 {
    fn probe_sin(self) -> f64 {
        unsafe { probe_sin(self) }
    }

    fn probe_cos(self) -> f64 {
        unsafe { probe_cos(self) }
    }

    fn probe_tan(self) -> f64 {
        unsafe { probe_tan(self) }
    }

    fn probe_asin(self) -> f64 {
        unsafe { probe_asin(self) }
    }

    fn probe_acos(self) -> f64 {
        unsafe { probe_acos(self) }
    }

    fn probe_atan(self) -> f64 {
        unsafe { probe_atan(self) }
    }

    fn probe_atan2(self, x: f64) -> f64 {
        unsafe { probe_atan2(self, x) }
    }

    /// Document 01: a square is one multiplication and a cube two. The crate asks for no other power.
    fn probe_powf(self, power: f64) -> f64 {
        if power == 2.0 {
            self * self
        } else if power == 3.0 {
            self * self * self
        } else {
            panic!("power {power}")
        }
    }
}
