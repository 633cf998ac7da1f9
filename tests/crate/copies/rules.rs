//! The rules that an order chooses in place of the crate's own: tag 15 carries past midnight, tag 17 starts the southern count again. The
//! changed lines of solar.rs and ops.rs ask here.
use std::sync::atomic::{AtomicBool, Ordering};

static CARRIES: AtomicBool = AtomicBool::new(false);
static STARTS_AGAIN: AtomicBool = AtomicBool::new(false);

pub fn choose(carries: bool, starts_again: bool) {
    CARRIES.store(carries, Ordering::Relaxed);
    STARTS_AGAIN.store(starts_again, Ordering::Relaxed);
}

pub fn carries() -> bool {
    CARRIES.load(Ordering::Relaxed)
}

pub fn starts_again() -> bool {
    STARTS_AGAIN.load(Ordering::Relaxed)
}
