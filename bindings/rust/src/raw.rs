//! The header's structs and calls, field by field. The test at the end holds their layout to the C compiler's.
//!
//! A call asks one thing of its caller: that a pointer has as many bytes behind it as its length says, and that buffers do not overlap. The
//! crate lends slices and vectors of its own, so each `unsafe` keeps that.

#[repr(C)]
#[derive(Clone, Copy, Default)]
pub struct Order {
    pub number: u32,
    pub place: u32,
    pub town_at: u32,
    pub town_length: u32,
    pub year: u32,
    pub month: u32,
    pub day: u32,
    pub rows: u32,
    pub latitude: f64,
    pub longitude: f64,
    pub fajr_angle: f64,
    pub isha_angle: f64,
    pub method: u32,
    pub madhab: u32,
    pub high_latitude_rule: u32,
    pub rounding: u32,
    pub shafaq: u32,
    pub isha_interval: u32,
    pub minutes: [i32; 6],
    pub carry: u32,
    pub clock: i32,
    pub southern: u32,
    pub ramadan: u32,
    pub imsak: u32,
    pub shift: i32,
}

#[repr(C)]
pub struct Day {
    pub number: u32,
    pub place: u32,
    pub times: [i64; 9],
}

#[repr(C)]
pub struct Prayer {
    pub number: u32,
    pub place: u32,
    pub prayer: u32,
}

#[repr(C)]
pub struct Remaining {
    pub number: u32,
    pub place: u32,
    pub hours: u32,
    pub minutes: u32,
}

#[repr(C)]
pub struct Reply {
    pub number: u32,
    pub place: u32,
}

#[repr(C)]
pub struct Written {
    pub number: u32,
    pub place: u32,
    pub length: u32,
}

#[repr(C)]
pub struct Meaning {
    pub number: u32,
    pub place: u32,
    pub of_number: u32,
    pub of_place: u32,
}

#[repr(C)]
pub struct Map {
    pub number: u32,
    pub place: u32,
    pub sign: u32,
    pub degrees: u32,
    pub minutes: u32,
    pub seconds: u32,
    pub hundredths: u32,
}

#[repr(C)]
pub struct Cells {
    pub number: u32,
    pub place: u32,
    pub rows: u32,
    pub dots: u32,
}

#[repr(C)]
#[derive(Clone, Copy, Debug, Default, PartialEq, Eq)]
pub struct Queue {
    pub jobs: u32,
    pub ids: [u32; 16],
    pub pages: [u32; 16],
}

#[repr(C)]
pub struct Joined {
    pub number: u32,
    pub place: u32,
    pub queue: Queue,
}

#[repr(C)]
pub struct Turned {
    pub id: u32,
    pub pages: u32,
    pub queue: Queue,
}

#[repr(C)]
pub struct Log {
    pub number: u32,
    pub place: u32,
    pub moved: u32,
    pub finished: u32,
    pub sent: u32,
    pub used: usize,
}

extern "C" {
    pub fn katchidul_version() -> u32;
    pub fn katchidul_read_order(order: *const u8, length: usize) -> Order;
    pub fn katchidul_write_order(order: Order, town: *const u8, town_length: usize, buffer: *mut u8, size: usize) -> Written;
    pub fn katchidul_work_day(order: *const u8, length: usize, row: u32) -> Day;
    pub fn katchidul_prayer_at(order: *const u8, length: usize, row: u32, seconds: i64, nanoseconds: u32) -> Prayer;
    pub fn katchidul_next_at(order: *const u8, length: usize, row: u32, seconds: i64, nanoseconds: u32) -> Prayer;
    pub fn katchidul_remaining_at(order: *const u8, length: usize, row: u32, seconds: i64, nanoseconds: u32) -> Remaining;
    pub fn katchidul_write_row(order: *const u8, length: usize, row: u32, buffer: *mut u8, size: usize) -> Reply;
    pub fn katchidul_write_cells(order: *const u8, length: usize, row: u32, buffer: *mut u8, size: usize) -> Cells;
    pub fn katchidul_write_page(order: *const u8, length: usize, page: u32, first: u32, scratch: *mut u8, size: usize) -> Cells;
    pub fn katchidul_join(queue: Queue, id: u32, pages: u32) -> Joined;
    pub fn katchidul_turn(queue: Queue) -> Turned;
    pub fn katchidul_read_log(log: *const u8, size: usize, used: usize) -> Log;
    pub fn katchidul_append(log: *mut u8, size: usize, used: usize, tag: u32, page: u32, second: *mut u8, second_size: usize) -> Log;
    pub fn katchidul_restart(log: *const u8, size: usize, used: usize, count: u32, second: *mut u8, second_size: usize) -> Log;
    pub fn katchidul_write_sentence(number: u32, place: u32, buffer: *mut u8, size: usize) -> Written;
    pub fn katchidul_read_sentence(sentence: *const u8, length: usize) -> Meaning;
    pub fn katchidul_map_latitude(degrees: f64) -> Map;
    pub fn katchidul_map_longitude(degrees: f64) -> Map;
}

#[cfg(test)]
mod tests {
    use super::*;
    use std::mem::{offset_of, size_of};
    use std::process::Command;

    /// For each struct its size and its fields' offsets, by this compiler, and the same as expressions for C.
    macro_rules! laid_out {
        ($($kind:ident { $($field:ident),+ })+) => {
            vec![$((size_of::<$kind>(), format!("sizeof(katchidul_{})", stringify!($kind).to_lowercase())),
                $((offset_of!($kind, $field),
                    format!("offsetof(katchidul_{}, {})", stringify!($kind).to_lowercase(), stringify!($field))),)+)+]
        };
    }

    #[test]
    fn structs_have_the_header_s_layout() {
        let ours = laid_out! {
            Order { number, place, town_at, town_length, year, month, day, rows, latitude, longitude, fajr_angle, isha_angle, method,
                madhab, high_latitude_rule, rounding, shafaq, isha_interval, minutes, carry, clock, southern, ramadan, imsak, shift }
            Day { number, place, times }
            Prayer { number, place, prayer }
            Remaining { number, place, hours, minutes }
            Reply { number, place }
            Written { number, place, length }
            Meaning { number, place, of_number, of_place }
            Map { number, place, sign, degrees, minutes, seconds, hundredths }
            Cells { number, place, rows, dots }
            Queue { jobs, ids, pages }
            Joined { number, place, queue }
            Turned { id, pages, queue }
            Log { number, place, moved, finished, sent, used }
        };
        let asserts: String = ours.iter().map(|(number, text)| format!("_Static_assert({text} == {number}, \"{text}\");\n")).collect();
        let source = std::env::temp_dir().join(format!("katchidul-layout-{}.c", std::process::id()));
        std::fs::write(&source, format!("#include <katchidul.h>\n{asserts}")).unwrap();
        let include = concat!(env!("CARGO_MANIFEST_DIR"), "/../../include");
        let ended = Command::new("cc").args(["-std=c11", "-fsyntax-only", "-I", include]).arg(&source).status().unwrap();
        std::fs::remove_file(&source).unwrap();
        assert!(ended.success());
    }
}
