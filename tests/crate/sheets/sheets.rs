//! Orders end to end: the sheet of an order's bytes, against document 01's text and the crate's times.
use crate::counts::Counts;
use crate::draw::Draw;
use crate::order_owed::Order;
use crate::orders::hexadecimal;
use crate::sheet_owed;
use crate::sheet_port::{printed, write_sheet, LONGEST};
use crate::summary::Line;
use crate::threads::shared;

const LINES: [&str; 3] = ["buffer, every byte", "sheet, line by line", "printed sheet"];

/// One order in this many is also given to the program.
const PRINTED: u64 = 10;

pub struct Sheets(Counts<{ LINES.len() }>);

impl Sheets {
    fn sheet(&mut self, draw: &mut Draw) {
        let bytes = draw.order().1;
        let owed = sheet_owed::sheet(&Order::new(&bytes));
        let ours = self.buffer(draw, &bytes, &owed);
        self.short_buffer(draw, &bytes);
        let mut our_lines = ours.split(|byte| *byte == b'\n');
        for owed in owed.split(|byte| *byte == b'\n') {
            let ours = our_lines.next().unwrap_or_default();
            self.0.add(1, ours == owed, || {
                let (ours, owed) = (String::from_utf8_lossy(ours), String::from_utf8_lossy(owed));
                format!("port '{ours}', owed '{owed}', order {}", hexadecimal(&bytes))
            });
        }
        if self.0.case % PRINTED == 0 {
            self.0.add(2, printed(&bytes) == owed, || format!("order {}", hexadecimal(&bytes)));
        }
    }

    /// The sheet is at the front of the buffer, and the bytes after it stay. Returns the sheet.
    fn buffer(&mut self, draw: &mut Draw, order: &[u8], owed: &[u8]) -> Vec<u8> {
        let before: Vec<u8> = vec![draw.bits() as u8; LONGEST + draw.index(2) * draw.index(100)];
        let mut buffer = before.clone();
        let length = write_sheet(order, &mut buffer).min(buffer.len());
        let all = [owed, &before[owed.len()..]].concat();
        self.0.add(0, length == owed.len() && buffer == all, || {
            format!("{length} bytes, owed {}, order {}", owed.len(), hexadecimal(order))
        });
        buffer.truncate(length);
        buffer
    }

    /// A buffer that might not hold a sheet is left as it was.
    fn short_buffer(&mut self, draw: &mut Draw, order: &[u8]) {
        let before = vec![draw.bits() as u8; [LONGEST - 1, draw.index(LONGEST), 0][draw.index(3)]];
        let mut buffer = before.clone();
        let length = write_sheet(order, &mut buffer);
        self.0.add(0, length == 0 && buffer == before, || format!("{length} bytes into {}, order {}", before.len(), hexadecimal(order)));
    }

    pub fn print_differences(&self) {
        self.0.print_differences();
    }

    pub fn print(&self) {
        self.0.print();
    }

    pub fn lines(&self) -> Vec<Line> {
        vec![
            self.0.line("sheets: every byte of the buffer", 0..1),
            self.0.line("sheets: line by line", 1..2),
            self.0.line("sheets: printed by the program", 2..3),
        ]
    }
}

/// Good orders and damaged ones, half and half.
pub fn sheets(seed: u64, size: u64) -> Sheets {
    let new = || Sheets(Counts::new(LINES));
    let shares = shared(seed, size, new, |sheets, number, draw| {
        sheets.0.case = number;
        sheets.sheet(draw);
    });
    let mut all = new();
    shares.into_iter().for_each(|share| all.0.merge(share.0));
    all
}
