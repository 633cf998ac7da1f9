//! Single days, and the reading of an order.
use crate::order_port::{read_order, work_day};
use crate::order_read::read;
use crate::orders::{orders, Order};
use crate::rounds::beside;
use salah_plain::schedule::PrayerTimes;
use std::hint::black_box;

const ORDERS: usize = 500;
const ROUNDS: usize = 101;

pub fn by_port(orders: &[Order]) {
    for order in orders {
        black_box(work_day(black_box(&order.bytes), 0));
    }
}

pub fn by_crate(orders: &[Order]) {
    for order in orders {
        black_box(PrayerTimes::new(black_box(order.date), order.coordinates, order.parameters));
    }
}

pub fn days() {
    let orders = orders(ORDERS, 1);
    let measured = beside(ROUNDS, &mut || by_port(&orders), &mut || by_crate(&orders));
    measured.print_rate("a single day, from the order's bytes", ORDERS);
}

/// The crate has no orders: the other reader is the one in plain Rust that tests/crate holds the port to.
pub fn reading() {
    let orders = orders(ORDERS, 1);
    let port = || {
        for order in &orders {
            black_box(read_order(black_box(&order.bytes)));
        }
    };
    let other = || {
        for order in &orders {
            let _ = black_box(read(black_box(&order.bytes)));
        }
    };
    beside(ROUNDS, &mut { port }, &mut { other }).print_rate("reading an order (beside a reader in plain Rust)", ORDERS);
}
