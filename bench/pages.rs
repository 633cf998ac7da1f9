//! Cells and the week's report beside the sheet's rows, all by the port: what a page costs, at once and row by row, the dots of an order, and the
//! report of its weeks.
use crate::orders::{orders, Order};
use crate::rounds::beside;
use crate::sheet_port::{write_sheet, LONGEST};
use std::hint::black_box;

const ROW_CELLS: usize = 39;
const PAGE_CELLS: usize = 975;
const WEAR: usize = 62;
const WEEK: usize = 22064;
const ROUNDS: usize = 101;

#[repr(C)]
struct KatchidulCells {
    number: u32,
    place: u32,
    rows: u32,
    dots: u32,
}

#[link(name = "katchidul", kind = "static")]
extern "C" {
    fn katchidul_write_page(order: *const u8, length: usize, page: u32, first: u32, scratch: *mut u8, size: usize) -> KatchidulCells;
}

#[link(name = "probes", kind = "static")]
extern "C" {
    fn probe_wear(order: *const u8, length: usize, buffer: *mut u8, size: usize) -> usize;
    fn probe_week(order: *const u8, length: usize, buffer: *mut u8, size: usize) -> usize;
}

/// Writes the first page, piece by piece, at the front of the scratch; its dots.
fn write_page(order: &[u8], rows: u32, scratch: &mut [u8]) -> u32 {
    let (mut first, mut dots) = (0, 0);
    while first < rows {
        let piece = unsafe { katchidul_write_page(order.as_ptr(), order.len(), 1, first, scratch.as_mut_ptr(), scratch.len()) };
        assert!(piece.number == 0 && piece.place == 0 && piece.rows > 0);
        first += piece.rows;
        dots += piece.dots;
    }
    dots
}

fn write_wear(order: &[u8], buffer: &mut [u8]) -> usize {
    unsafe { probe_wear(order.as_ptr(), order.len(), buffer.as_mut_ptr(), buffer.len()) }
}

fn write_week(order: &[u8], buffer: &mut [u8]) -> usize {
    unsafe { probe_week(order.as_ptr(), order.len(), buffer.as_mut_ptr(), buffer.len()) }
}

/// The same orders by some work of ours and by the sheet, in rounds of some milliseconds.
fn beside_sheet(what: &str, orders: &[Order], ours: &mut dyn FnMut(&[u8])) {
    let rows = orders[0].rows as usize;
    let count = 2000usize.div_ceil(orders.len() * rows) * orders.len();
    let mut sheet = vec![0; LONGEST];
    let mut cells = || orders.iter().cycle().take(count).for_each(|order| ours(black_box(&order.bytes)));
    let mut sheets = || {
        for order in orders.iter().cycle().take(count) {
            black_box(write_sheet(black_box(&order.bytes), &mut sheet));
        }
    };
    beside(ROUNDS, &mut cells, &mut sheets).print_calls(what, count * rows);
}

pub fn pages() {
    let mut report = vec![0; WEAR];
    for (what, size) in [("a row of a page of 25", PAGE_CELLS), ("a row of such a page, row by row", ROW_CELLS)] {
        let mut scratch = vec![0; size];
        beside_sheet(what, &orders(8, 25), &mut |order| {
            black_box(write_page(order, 25, &mut scratch));
        });
    }
    beside_sheet("a row of the dots of 250", &orders(8, 250), &mut |order| {
        black_box(write_wear(order, &mut report));
    });
    let mut weeks = vec![0; WEEK];
    beside_sheet("a row of the weeks of 250", &orders(8, 250), &mut |order| {
        assert!(black_box(write_week(order, &mut weeks)) > 0);
    });
}
