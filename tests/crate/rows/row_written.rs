//! A row written into a lent buffer: number, place and every byte of the buffer after the call.
use crate::day_crate::Refusal;
use crate::draw::Draw;
use crate::order_owed::Order;
use crate::order_port::{self, KatchidulReply};
use crate::sheet_owed::row_text;
use chrono::Duration;
use salah_probes::schedule::{access, PrayerTimes};

/// A full row, with its newline, and one of a Ramadan sheet.
const ROW: usize = 119;
const RAMADAN_ROW: usize = 131;

#[derive(Debug, PartialEq)]
pub struct Written {
    pub reply: KatchidulReply,
    pub buffer: Vec<u8>,
}

impl Written {
    pub fn by_port(order: &[u8], row: u32, before: &[u8]) -> Written {
        let mut buffer = before.to_vec();
        let reply = order_port::write_row(order, row, &mut buffer);
        Written { reply, buffer }
    }

    /// The buffer is checked before anything else, and again once a Ramadan sheet's order is read; a refused call changes no byte of it.
    pub fn owed(order: &Order, row: u32, day: &Result<PrayerTimes, Refusal>, before: &[u8]) -> Written {
        let refused = |refusal: Refusal| Written { reply: refusal.into(), buffer: before.to_vec() };
        let imsak = order.reading.as_ref().ok().and_then(|asked| asked.imsak());
        if before.len() < ROW || imsak.is_some() && before.len() < RAMADAN_ROW {
            return refused(Refusal { number: 9, place: 0 });
        }
        match (day, &order.reading) {
            (Ok(times), Ok(asked)) => {
                let text = row_text(asked.date + Duration::days(row as i64), &Ok(access::nine(times)), imsak);
                Written { reply: KatchidulReply::default(), buffer: [text.as_bytes(), &before[text.len()..]].concat() }
            }
            (Err(refusal), _) | (_, Err(refusal)) => refused(*refusal),
        }
    }
}

impl Draw {
    /// A buffer to write into: just too small, just large enough, larger, empty, filled with anything.
    pub fn row_buffer(&mut self) -> Vec<u8> {
        let size = [0, 1, ROW - 1, ROW, ROW + 1, RAMADAN_ROW - 1, RAMADAN_ROW, self.index(400)][self.index(8)];
        (0..size).map(|_| self.bits() as u8).collect()
    }
}
