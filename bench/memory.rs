//! The peak memory of a program that is given an order and prints a sheet.
use std::io::{Read, Write};
use std::os::fd::AsRawFd;
use std::process::{Child, Command, Stdio};

const F_SETPIPE_SZ: i32 = 1031;

extern "C" {
    fn fcntl(file: i32, command: i32, value: i32) -> i32;
}

/// Kilobytes, by the kernel's count of the child's own pages. A child's rusage would count the parent's pages from before exec.
fn peak_so_far(child: &Child) -> u64 {
    let status = std::fs::read_to_string(format!("/proc/{}/status", child.id())).unwrap_or_default();
    let peak = status.lines().find_map(|line| line.strip_prefix("VmHWM:"));
    peak.and_then(|peak| peak.trim().trim_end_matches(" kB").parse().ok()).unwrap_or(0)
}

/// Runs the program and returns its peak in kilobytes and what it printed. The pipe holds less than a sheet, so that the program waits
/// in its last writes while it is looked at.
pub fn peak(command: &mut Command, order: &[u8]) -> (u64, Vec<u8>) {
    let mut child = command.stdin(Stdio::piped()).stdout(Stdio::piped()).spawn().unwrap();
    let mut printed = child.stdout.take().unwrap();
    unsafe { fcntl(printed.as_raw_fd(), F_SETPIPE_SZ, 4096) };
    child.stdin.take().unwrap().write_all(order).unwrap();
    let (mut peak, mut sheet, mut piece) = (0, Vec::new(), [0; 1024]);
    loop {
        let read = printed.read(&mut piece).unwrap();
        peak = peak.max(peak_so_far(&child));
        if read == 0 {
            child.wait().unwrap();
            return (peak, sheet);
        }
        sheet.extend_from_slice(&piece[..read]);
    }
}
