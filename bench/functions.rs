//! The functions beside the platform's: fdlibm's against libm, the helpers against Rust's own methods and casts.
//! Arguments are random, the same in every run.
use crate::rounds::beside;
use std::hint::black_box;

#[link(name = "probes", kind = "static")]
extern "C" {
    fn probe_sin(x: f64) -> f64;
    fn probe_cos(x: f64) -> f64;
    fn probe_tan(x: f64) -> f64;
    fn probe_sqrt(x: f64) -> f64;
    fn probe_asin(x: f64) -> f64;
    fn probe_acos(x: f64) -> f64;
    fn probe_atan(x: f64) -> f64;
    fn probe_atan2(y: f64, x: f64) -> f64;
    fn probe_floor(x: f64) -> f64;
    fn probe_trunc(x: f64) -> f64;
    fn probe_round(x: f64) -> f64;
    fn probe_to_i32(x: f64) -> i32;
    fn probe_to_u32(x: f64) -> u32;
    fn probe_to_i64(x: f64) -> i64;
    fn probe_to_u64(x: f64) -> u64;
}

const ARGUMENTS: usize = 16384;
const ROUNDS: usize = 201;

/// Numbers from 0 to 1, by a multiplicative generator.
struct Numbers(u64);

impl Numbers {
    fn next(&mut self) -> f64 {
        self.0 = self.0.wrapping_mul(6364136223846793005).wrapping_add(1442695040888963407);
        (self.0 >> 11) as f64 / (1u64 << 53) as f64
    }

    fn list(&mut self, from: f64, to: f64) -> Vec<f64> {
        (0..ARGUMENTS).map(|_| from + (to - from) * self.next()).collect()
    }
}

/// Each function is called, not inlined, on both sides.
fn calls(f: &dyn Fn(f64, f64) -> f64, x: &[f64], y: &[f64]) {
    let mut sum = 0.0;
    for i in 0..ARGUMENTS {
        sum += f(x[i], y[i]);
    }
    black_box(sum);
}

fn row(name: &str, ours: &dyn Fn(f64, f64) -> f64, theirs: &dyn Fn(f64, f64) -> f64, x: &[f64], y: &[f64]) {
    beside(ROUNDS, &mut || calls(ours, x, y), &mut || calls(theirs, x, y)).print_calls(name, ARGUMENTS);
}

macro_rules! unary {
    ($name:literal, $ours:ident, $theirs:expr, $x:expr) => {{
        #[inline(never)]
        fn theirs(x: f64) -> f64 {
            let f = $theirs;
            f(x)
        }
        row($name, &|x, _| unsafe { $ours(x) as f64 }, &|x, _| theirs(x), $x, $x);
    }};
}

pub fn functions() {
    let mut numbers = Numbers(1);
    let angles = numbers.list(-70.0, 70.0);
    let unit = numbers.list(-1.0, 1.0);
    let positive = numbers.list(0.0, 100.0);
    let wide = numbers.list(-1000.0, 1000.0);
    let other = numbers.list(-1000.0, 1000.0);
    unary!("sin, -70 to 70", probe_sin, |x: f64| x.sin(), &angles);
    unary!("cos, -70 to 70", probe_cos, |x: f64| x.cos(), &angles);
    unary!("tan, -70 to 70", probe_tan, |x: f64| x.tan(), &angles);
    unary!("sin, -1 to 1", probe_sin, |x: f64| x.sin(), &unit);
    unary!("cos, -1 to 1", probe_cos, |x: f64| x.cos(), &unit);
    unary!("asin, -1 to 1", probe_asin, |x: f64| x.asin(), &unit);
    unary!("acos, -1 to 1", probe_acos, |x: f64| x.acos(), &unit);
    unary!("atan, -1000 to 1000", probe_atan, |x: f64| x.atan(), &wide);
    row("atan2, -1000 to 1000", &|y, x| unsafe { probe_atan2(y, x) }, &|y, x| black_box(y).atan2(x), &wide, &other);
    unary!("sqrt, 0 to 100", probe_sqrt, |x: f64| x.sqrt(), &positive);
    unary!("floor, -1000 to 1000", probe_floor, |x: f64| x.floor(), &wide);
    unary!("trunc, -1000 to 1000", probe_trunc, |x: f64| x.trunc(), &wide);
    unary!("round, -1000 to 1000", probe_round, |x: f64| x.round(), &wide);
    unary!("as i32, -1000 to 1000", probe_to_i32, |x: f64| (x as i32) as f64, &wide);
    unary!("as u32, -1000 to 1000", probe_to_u32, |x: f64| (x as u32) as f64, &wide);
    unary!("as i64, -1000 to 1000", probe_to_i64, |x: f64| (x as i64) as f64, &wide);
    unary!("as u64, -1000 to 1000", probe_to_u64, |x: f64| (x as u64) as f64, &wide);
}
