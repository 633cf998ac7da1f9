//! Orders: what the port's calls return on an order's bytes must be what document 01 and the crate say.
use crate::counts::Counts;
use crate::day_crate::Refusal;
use crate::day_draw::Instant;
use crate::draw::Draw;
use crate::order_damage::KINDS;
use crate::order_owed::{InstantAnswers, Order, FARTHEST};
use crate::order_port::{self, KatchidulDay, KatchidulOrder, ORDER_FIELDS};
use crate::row_written::Written;
use crate::summary::Line;
use crate::threads::shared;
use salah_probes::schedule::{access, PrayerTimes};

/// What is compared, a line of the table each. The fields of the order that was read come first.
const LINES: [&str; PLAIN + 1] = {
    let mut lines = [""; PLAIN + 1];
    let mut line = 0;
    while line < ORDER_FIELDS.len() {
        lines[line] = ORDER_FIELDS[line];
        line += 1;
    }
    (lines[NUMBER], lines[PLACE], lines[TIMES]) = ("day's number", "day's place", "nine times");
    (lines[PRAYER], lines[NEXT], lines[REMAINING]) = ("prayer in force", "next prayer", "time remaining");
    (lines[REPLY], lines[BUFFER]) = ("written row's reply", "written row's buffer");
    lines[PLAIN] = "plain reader";
    lines
};
/// What reading an order can be refused by, and 0.
const REFUSALS: [u32; 8] = [0, 1, 2, 3, 4, 5, 15, 18];
const NUMBER: usize = ORDER_FIELDS.len();
const PLACE: usize = ORDER_FIELDS.len() + 1;
const TIMES: usize = ORDER_FIELDS.len() + 2;
const PRAYER: usize = ORDER_FIELDS.len() + 3;
const NEXT: usize = ORDER_FIELDS.len() + 4;
const REMAINING: usize = ORDER_FIELDS.len() + 5;
const REPLY: usize = ORDER_FIELDS.len() + 6;
const BUFFER: usize = ORDER_FIELDS.len() + 7;
const PLAIN: usize = ORDER_FIELDS.len() + 8;

pub struct Orders {
    counts: Counts<{ LINES.len() }>,
    /// Orders by kind and by the number that refuses them, 0 first.
    kinds: [[u64; REFUSALS.len()]; KINDS.len()],
    /// Rows with nine times, rows that the order refuses or lacks, and days refused, by number and day.
    with_times: u64,
    no_row: u64,
    refused: [[u64; 3]; 3],
    /// Instants by the prayer in force, none first, and those that are refused before it is asked.
    in_force: [u64; 9],
    no_prayer: u64,
}

pub fn hexadecimal(bytes: &[u8]) -> String {
    bytes.iter().map(|byte| format!("{byte:02x}")).collect()
}

impl Orders {
    fn new() -> Orders {
        Orders {
            counts: Counts::new(LINES),
            kinds: [[0; REFUSALS.len()]; KINDS.len()],
            with_times: 0,
            no_row: 0,
            refused: [[0; 3]; 3],
            in_force: [0; 9],
            no_prayer: 0,
        }
    }

    fn order(&mut self, draw: &mut Draw, instants: u64) {
        let (kind, bytes) = draw.order();
        let order = Order::new(&bytes);
        let owed = order.read_owed();
        self.kinds[kind][REFUSALS.iter().position(|number| *number == owed.number).unwrap()] += 1;
        self.read(&order, owed);
        for row in draw.rows_of(&order) {
            let day = order.day(row);
            self.day(&order, row, &day);
            self.written(draw, &order, row, &day);
            self.instants(draw, &order, row, &day, instants);
        }
    }

    fn read(&mut self, order: &Order, owed: KatchidulOrder) {
        let ours = order_port::read_order(order.bytes);
        let (our_fields, owed_fields) = (ours.fields(), owed.fields());
        for field in 0..ORDER_FIELDS.len() {
            self.counts.add(field, our_fields[field] == owed_fields[field], || {
                format!("port {ours:?}, owed {owed:?}, order {}", hexadecimal(order.bytes))
            });
        }
        let plain = order_port::read_plainly(order.bytes);
        self.counts.add(PLAIN, plain.fields() == owed_fields, || {
            format!("plain {plain:?}, owed {owed:?}, order {}", hexadecimal(order.bytes))
        });
    }

    fn day(&mut self, order: &Order, row: u32, day: &Result<PrayerTimes, Refusal>) {
        let owed = match *day {
            Ok(times) => KatchidulDay { number: 0, place: 0, times: access::nine(&times) },
            Err(refusal) => refusal.into(),
        };
        match (owed.number, owed.place) {
            (0, _) => self.with_times += 1,
            (number @ 6..=8, day @ 0..=2) => self.refused[number as usize - 6][day as usize] += 1,
            _ => self.no_row += 1,
        }
        let ours = order_port::work_day(order.bytes, row);
        let what = || format!("port {ours:?}, owed {owed:?}, row {row}, order {}", hexadecimal(order.bytes));
        self.counts.add(NUMBER, ours.number == owed.number, what);
        self.counts.add(PLACE, ours.place == owed.place, what);
        self.counts.add(TIMES, ours.times == owed.times, what);
    }

    fn written(&mut self, draw: &Draw, order: &Order, row: u32, day: &Result<PrayerTimes, Refusal>) {
        // by its own draw, so that the instants do not depend on buffers
        let before = Draw(draw.0).row_buffer();
        let (ours, owed) = (Written::by_port(order.bytes, row, &before), Written::owed(order, row, day, &before));
        let what = || format!("port {ours:?}, owed {owed:?}, row {row}, order {}", hexadecimal(order.bytes));
        self.counts.add(REPLY, ours.reply == owed.reply, what);
        self.counts.add(BUFFER, ours.buffer == owed.buffer, what);
    }

    /// Of a row without times one instant, since all are answered alike; of any row one more, that is mostly refused itself.
    fn instants(&mut self, draw: &mut Draw, order: &Order, row: u32, day: &Result<PrayerTimes, Refusal>, instants: u64) {
        let (times, instants) = match day {
            Ok(times) => (access::nine(times), instants),
            Err(_) => ([0; 9], 1),
        };
        for _ in 0..instants {
            let at = draw.instant_near(&times);
            self.instant(order, row, day, at);
        }
        let at = draw.instant_refused();
        self.instant(order, row, day, at);
    }

    fn instant(&mut self, order: &Order, row: u32, day: &Result<PrayerTimes, Refusal>, at: Instant) {
        let owed = InstantAnswers::new(day, at);
        match owed.prayer.number {
            0 => self.in_force[owed.prayer.prayer as usize] += 1,
            _ => self.no_prayer += 1,
        }
        let ours = InstantAnswers {
            prayer: order_port::prayer_at(order.bytes, row, at),
            next: order_port::next_at(order.bytes, row, at),
            remaining: order_port::remaining_at(order.bytes, row, at),
        };
        let what = || format!("port {ours:?}, owed {owed:?}, row {row}, {at:?}, order {}", hexadecimal(order.bytes));
        self.counts.add(PRAYER, ours.prayer == owed.prayer, what);
        self.counts.add(NEXT, ours.next == owed.next, what);
        self.counts.add(REMAINING, ours.remaining == owed.remaining, what);
    }

    fn merge(&mut self, other: Orders) {
        self.counts.merge(other.counts);
        let add = |sums: &mut [u64], numbers: &[u64]| sums.iter_mut().zip(numbers).for_each(|(sum, number)| *sum += number);
        add(self.kinds.as_flattened_mut(), other.kinds.as_flattened());
        add(self.refused.as_flattened_mut(), other.refused.as_flattened());
        add(&mut self.in_force, &other.in_force);
        self.with_times += other.with_times;
        self.no_row += other.no_row;
        self.no_prayer += other.no_prayer;
    }

    pub fn print(&self) {
        println!("{:<24} {}  (0 is read)", "orders by refusal", REFUSALS.map(|number| format!("{number:>9}")).concat());
        let mut all = [0; REFUSALS.len()];
        self.kinds.iter().for_each(|kind| all.iter_mut().zip(kind).for_each(|(sum, count)| *sum += count));
        for (name, counts) in KINDS.iter().zip(&self.kinds).chain([(&"all", &all)]) {
            println!("{name:<24} {}", counts.map(|count| format!("{count:>9}")).concat());
        }
        let [six, seven, eight] = self.refused;
        println!("\nrows: {} with nine times, {} that the order refuses or lacks", self.with_times, self.no_row);
        println!("days refused, on day 0, 1 and 2: 6 {six:?}, 7 {seven:?}, 8 {eight:?}");
        println!("instants by the prayer in force, none, then from Fajr to FajrTomorrow: {:?}", self.in_force);
        println!("instants refused by themselves, or with the order, the row or the day: {}\n", self.no_prayer);
        self.counts.print();
    }

    pub fn print_differences(&self) {
        self.counts.print_differences();
    }

    pub fn lines(&self) -> Vec<Line> {
        vec![
            self.counts.line("orders: fields read, or the refusal", 0..NUMBER),
            self.counts.line("orders: nine times of a row, or the refusal", NUMBER..PRAYER),
            self.counts.line("orders: prayer, next and remaining at an instant", PRAYER..REPLY),
            self.counts.line("orders: a row written, and every byte of the buffer", REPLY..PLAIN),
            self.counts.line("orders: the plain reader's fields, or its refusal", PLAIN..LINES.len()),
        ]
    }
}

impl Draw {
    /// Rows to work: the first, the last, one between and one that the order lacks. Of a refused order one: all are refused alike.
    fn rows_of(&mut self, order: &Order) -> Vec<u32> {
        let Ok(asked) = &order.reading else { return vec![[0, 399, u32::MAX][self.index(3)]] };
        let beyond = [asked.rows, asked.rows + 1, 400, 65_536, u32::MAX][self.index(5)];
        let mut rows = vec![0, self.below(asked.rows as u64) as u32, asked.rows - 1, beyond];
        rows.dedup();
        rows
    }

    /// At the ends of what an instant can be and beyond them.
    fn instant_refused(&mut self) -> Instant {
        let seconds = [FARTHEST, -FARTHEST, FARTHEST + 1, -FARTHEST - 1, i64::MAX, i64::MIN, 0][self.index(7)];
        let nanoseconds = [0, 999_999_999, 1_000_000_000, u32::MAX][self.index(4)];
        Instant { seconds, nanoseconds }
    }
}

/// Each order is drawn from a seed of its own, so that neither threads nor answers change it.
pub fn orders(seed: u64, size: u64, instants: u64) -> Orders {
    let shares = shared(seed, size, Orders::new, |orders, number, draw| {
        orders.counts.case = number;
        orders.order(draw, instants);
    });
    let mut all = Orders::new();
    shares.into_iter().for_each(|share| all.merge(share));
    all
}
