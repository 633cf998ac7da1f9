//! The port's sheet of an order: in a lent buffer, by the export of crates/probes, and printed by the program `sheet`.
use std::io::Write;
use std::process::{Command, Stdio};

/// What the longest sheet takes, a town of 40 bytes, the header and 400 full rows; a smaller buffer gets nothing.
pub const LONGEST: usize = 41 + 63 + 400 * 119;

/// From the root of this repository, where tests/crate/run and bench/run work.
pub const PROGRAM: &str = "target/bin/sheet";

#[link(name = "probes", kind = "static")]
extern "C" {
    fn probe_sheet(order: *const u8, length: usize, buffer: *mut u8, size: usize) -> usize;
}

/// Writes the sheet at the front of the buffer and returns its length.
pub fn write_sheet(order: &[u8], buffer: &mut [u8]) -> usize {
    unsafe { probe_sheet(order.as_ptr(), order.len(), buffer.as_mut_ptr(), buffer.len()) }
}

/// What the program prints.
pub fn printed(order: &[u8]) -> Vec<u8> {
    let mut program = Command::new(PROGRAM).stdin(Stdio::piped()).stdout(Stdio::piped()).spawn().unwrap();
    // a far too long order is not read to its end
    let _ = program.stdin.take().unwrap().write_all(order);
    program.wait_with_output().unwrap().stdout
}
