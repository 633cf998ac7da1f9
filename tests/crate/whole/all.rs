//! Every comparison, one after the other, and the one table.
use crate::days::days;
use crate::hours::hours;
use crate::near_edge::near_edge;
use crate::orders::orders;
use crate::plain::plain_rows;
use crate::rows::rows;
use crate::sheets::sheets;
use crate::steps::steps;
use crate::summary::{self, Line};

/// A default run stays under three minutes on two processors, a long one takes hours.
pub const DEFAULT_SIZE: u64 = 10;
pub const LONG_SIZE: u64 = 1_500;

/// `size` scales all of them alike. Differences are printed as they are found.
pub fn all(seed: u64, size: u64) -> Vec<Line> {
    let mut lines = hours(seed, 60_000 * size, false).lines();
    let steps = steps(seed, 100_000 * size);
    steps.print_differences();
    lines.extend(steps.lines());
    lines.extend(days(seed, 50_000 * size, 16).lines());
    lines.extend(rows(seed, 60_000 * size).lines());
    lines.extend(plain_rows(seed, 80_000 * size, false).lines());
    lines.extend(near_edge(seed, 40 * size).lines());
    let orders = orders(seed, 20_000 * size, 9);
    orders.print_differences();
    lines.extend(orders.lines());
    let sheets = sheets(seed, 500 * size);
    sheets.print_differences();
    lines.extend(sheets.lines());
    println!("\nseed {seed}, size {size}; equal is within 0.0001 hour in the first line, and everything else alike");
    summary::print(&lines);
    lines
}
