//! Orders damaged in every way that document 01's tables name. A damage may leave an order good (a byte changed to itself): the
//! reading decides, not the damage.
use crate::draw::Draw;
use crate::order_draw::{date_value, last_date, written, Field};
use crate::order_read::{lengths, read, FORMS, LAST_TAG, LONGEST};
use chrono::{Datelike, Duration};

/// The kinds of orders, a line of the table each.
pub const KINDS: [&str; 15] = [
    "good", "unknown tag", "wrong length", "tag twice", "tag missing", "just out of range", "NaN or infinite", "no such date",
    "last row past the end", "both forms", "cut", "1,024 bytes or over", "random bytes", "one byte changed", "two defects",
];

/// From this kind on the bytes are damaged, before it the fields.
const OF_BYTES: usize = 10;
const TWO_DEFECTS: usize = 14;

const FLOATS: [u8; 4] = [4, 5, 12, 13];

/// Puts a tag's value, at the end if the order lacks the tag.
fn put(fields: &mut Vec<Field>, field: Field) {
    match fields.iter().position(|there| there.tag == field.tag) {
        Some(at) => fields[at] = field,
        None => fields.push(field),
    }
}

fn insert(draw: &mut Draw, fields: &mut Vec<Field>, field: Field) {
    let at = draw.index(fields.len() + 1);
    fields.insert(at, field);
}

/// The next float away from 0.
fn beyond(value: f64) -> f64 {
    f64::from_bits(value.to_bits() + 1)
}

impl Draw {
    fn some_bytes(&mut self, length: usize) -> Vec<u8> {
        (0..length).map(|_| self.bits() as u8).collect()
    }

    fn unknown_tag(&mut self, fields: &mut Vec<Field>) {
        let tag = [0, LAST_TAG + 1, 99, 255, LAST_TAG + 1 + self.below(255 - LAST_TAG as u64) as u8][self.index(5)];
        if self.coin() && !fields.is_empty() {
            let at = self.index(fields.len());
            fields[at].tag = tag;
        } else {
            let length = self.index(20);
            let field = Field::new(tag, &self.some_bytes(length));
            insert(self, fields, field);
        }
    }

    /// A length that its tag's value can't have, the value as long or not.
    fn wrong_length(&mut self, fields: &mut Vec<Field>) {
        let tag = 1 + self.below(LAST_TAG as u64) as u8;
        let Some(right) = lengths(tag) else { return self.unknown_tag(fields) };
        let length = [0, right.start() - 1, right.end() + 1, 255, 256 + right.start(), 65_535, self.index(65_536)][self.index(7)];
        let mut field = Field { tag, length: length as u16, value: vec![65; *right.start()] };
        if self.coin() && length < 60 {
            field.value = self.some_bytes(length);
        }
        put(fields, field);
    }

    /// The second may be another than the first, and of another length.
    fn tag_twice(&mut self, fields: &mut Vec<Field>) {
        if fields.is_empty() {
            return;
        }
        let mut again = fields[self.index(fields.len())].clone();
        match self.below(4) {
            0 => again.value.iter_mut().for_each(|byte| *byte ^= 1),
            1 => again.length = self.below(50) as u16,
            _ => {}
        }
        insert(self, fields, again);
    }

    fn tag_missing(&mut self, fields: &mut Vec<Field>) {
        for _ in 0..1 + self.below(2) {
            let tag = 1 + self.below(6) as u8;
            let other = FORMS.iter().find(|form| form.0 == tag).map_or(tag, |form| form.1);
            fields.retain(|field| field.tag != tag && field.tag != other);
        }
    }

    /// Values just out of each range; the ends themselves are in good orders.
    fn just_out(&mut self, fields: &mut Vec<Field>) {
        let tag = [1, 3, 4, 5, 6, 7, 8, 9, 10, 11, 12, 13, 14, 15, 16, 17, 18, 19, 20][self.index(19)];
        // a coordinate in this form alone
        let other = FORMS.iter().find_map(|form| if form.0 == tag { Some(form.1) } else if form.1 == tag { Some(form.0) } else { None });
        fields.retain(|field| Some(field.tag) != other);
        let field = match tag {
            1 => Field::new(tag, &self.town_out()),
            3 if self.coin() => Field::new(tag, &[[0, 251, 255][self.index(3)]]),
            3 => Field::new(tag, &[0u16, 401, 512, 65_535][self.index(4)].to_be_bytes()),
            4 => Field::new(tag, &(self.sign() * beyond(90.0)).to_be_bytes()),
            5 => Field::new(tag, &(self.sign() * beyond(180.0)).to_be_bytes()),
            6 => Field::new(tag, &[13 + self.below(3) as u8]),
            7 => Field::new(tag, &[[0, 3, 255][self.index(3)]]),
            8..=10 => Field::new(tag, &[[3, 4, 255][self.index(3)]]),
            11 => Field::new(tag, &self.minutes_out()),
            15 | 17 => Field::new(tag, &[[2, 255][self.index(2)]]),
            16 => Field::new(tag, &[841i16, -841, i16::MAX, i16::MIN][self.index(4)].to_be_bytes()),
            18 | 19 => Field::new(tag, &self.map_out(if tag == 18 { 90 } else { 180 })),
            20 => Field::new(tag, &[[31, 1], [255, 0], [0, 3], [30, 255], [0, 1]][self.index(5)]),
            14 => Field::new(tag, &[1_441u16, 1_440 + 256, 65_535][self.index(3)].to_be_bytes()),
            _ => Field::new(tag, &[beyond(30.0), -5e-324, 30.1][self.index(3)].to_be_bytes()),
        };
        put(fields, field);
    }

    fn town_out(&mut self) -> Vec<u8> {
        let mut town = vec![b'a'; 1 + self.index(40)];
        let at = self.index(town.len());
        town[at] = [31, 127, 0, 255, 128, 10][self.index(6)];
        town
    }

    fn map_out(&mut self, most: u8) -> [u8; 5] {
        [[2, 0, 0, 0, 0], [0, most, 0, 0, 1], [1, most + 1, 0, 0, 0], [0, 0, 60, 0, 0], [1, 0, 0, 60, 0], [0, 0, 0, 0, 100], [255; 5]][self.index(7)]
    }

    fn minutes_out(&mut self) -> Vec<u8> {
        let mut minutes = [0; 6].map(|_| self.minutes() as i16);
        minutes[self.index(6)] = [721, -721, i16::MAX, i16::MIN, 720 + 256][self.index(5)];
        minutes.map(i16::to_be_bytes).concat()
    }

    fn no_number(&mut self, fields: &mut Vec<Field>) {
        let tag = FLOATS[self.index(4)];
        let payload = self.bits() >> 12;
        let bits = match self.below(4) {
            0 => f64::INFINITY.to_bits(),
            1 => f64::NEG_INFINITY.to_bits(),
            2 => f64::NAN.to_bits(),
            _ => 0x7ff0_0000_0000_0000 | (self.below(2) << 63) | payload,
        };
        put(fields, Field::new(tag, &bits.to_be_bytes()));
    }

    /// Just outside of the calendar, months and days that there are not, and Februaries that are good in some years only.
    fn no_date(&mut self, fields: &mut Vec<Field>) {
        let year = self.year() as i32;
        let month = 1 + self.below(12) as u32;
        let value = match self.below(8) {
            0 => date_value(1899, 12, 31),
            1 => date_value(2200, 1, 1),
            2 => date_value([0, 1899, 2200, 65_535][self.index(4)], month, 1),
            3 => date_value(year, [0, 13, 255][self.index(3)], 1),
            4 => date_value(year, month, [0, 32, 255][self.index(3)]),
            5 => date_value([1900, 2000, 2100, year][self.index(4)], 2, 29),
            6 => date_value(year, 2, 30),
            _ => date_value(year, month, 31),
        };
        put(fields, Field::new(2, &value));
    }

    fn past_the_end(&mut self, fields: &mut Vec<Field>) {
        let rows = 2 + self.below(399) as i64;
        let date = last_date() - Duration::days([rows - 2, 0, self.below(rows as u64 - 1) as i64][self.index(3)]);
        put(fields, Field::new(2, &date_value(date.year(), date.month(), date.day())));
        put(fields, Field::new(3, &self.rows_value(rows)));
    }

    /// A coordinate in its other form too, with any value.
    fn both_forms(&mut self, fields: &mut Vec<Field>) {
        for (float, map) in FORMS {
            if self.coin() {
                let tag = if fields.iter().any(|field| field.tag == map) { float } else { map };
                let length = *lengths(tag).unwrap().start();
                let field = Field::new(tag, &self.some_bytes(length));
                insert(self, fields, field);
            }
        }
    }

    fn damage_fields(&mut self, kind: usize, fields: &mut Vec<Field>) {
        match kind {
            1 => self.unknown_tag(fields),
            2 => self.wrong_length(fields),
            3 => self.tag_twice(fields),
            4 => self.tag_missing(fields),
            5 => self.just_out(fields),
            6 => self.no_number(fields),
            7 => self.no_date(fields),
            8 => self.past_the_end(fields),
            _ => self.both_forms(fields),
        }
    }

    /// In a header, right after it, in a value or right after that: a field is picked first, so that short ones are cut as often.
    fn cut(&mut self, fields: &[Field]) -> Vec<u8> {
        let at = self.index(fields.len() + 1);
        let mut order = written(&fields[..at]);
        if let Some(field) = fields.get(at) {
            let whole = written(std::slice::from_ref(field));
            order.extend_from_slice(&whole[..[0, 1, 2, 3, whole.len() - 1, self.index(whole.len())][self.index(6)]]);
        }
        order
    }

    /// Good in front, then bytes that make an unknown field, the town's again, or nothing sensible; a few are far too long.
    fn long(&mut self, mut order: Vec<u8>) -> Vec<u8> {
        let length = [LONGEST, LONGEST + 1, LONGEST - 1, LONGEST + self.index(70_000)][self.index(4)];
        let left = (length - order.len()).saturating_sub(3) as u16;
        let [high, low] = left.to_be_bytes();
        match self.below(4) {
            0 => order.extend([99, high, low]),
            1 => order.extend([1, high, low]),
            2 => order = [vec![1, high, low], order].concat(),
            _ => {}
        }
        order.resize(length, 65);
        order
    }

    /// Any bytes, or fields with tags and lengths that are nearly right, cut or not, so that the reading gets further.
    fn random(&mut self) -> Vec<u8> {
        let mut order = Vec::new();
        if self.coin() {
            let length = [self.index(4), self.index(200)][self.index(2)];
            return self.some_bytes(length);
        }
        for _ in 0..self.below(12) {
            let tag = self.below(LAST_TAG as u64 + 2) as u8;
            let length = lengths(tag).map_or(0, |right| *right.start());
            order.extend(written(&[Field::new(tag, &self.some_bytes(length))]));
        }
        order.truncate(if self.coin() { order.len() } else { self.index(order.len() + 1) });
        order
    }

    fn one_byte(&mut self, mut order: Vec<u8>) -> Vec<u8> {
        if !order.is_empty() {
            let at = self.index(order.len());
            order[at] = if self.coin() { self.bits() as u8 } else { order[at] ^ (1 << self.below(8)) };
        }
        order
    }

    fn damage_bytes(&mut self, kind: usize, fields: &[Field]) -> Vec<u8> {
        match kind {
            10 => self.cut(fields),
            11 => self.long(written(fields)),
            12 => self.random(),
            _ => self.one_byte(written(fields)),
        }
    }

    /// An order and its kind; half of them are good. None chooses another rule than the crate's.
    pub fn order(&mut self) -> (usize, Vec<u8>) {
        loop {
            let (kind, order) = self.any_order();
            if read(&order).map_or(true, |asked| asked.is_the_crates()) {
                return (kind, order);
            }
        }
    }

    fn any_order(&mut self) -> (usize, Vec<u8>) {
        let mut fields = self.good_fields();
        let kind = if self.coin() { 0 } else { 1 + self.index(KINDS.len() - 1) };
        let order = match kind {
            0 => written(&fields),
            TWO_DEFECTS => self.two_defects(&mut fields),
            OF_BYTES.. => self.damage_bytes(kind, &fields),
            _ => {
                self.damage_fields(kind, &mut fields);
                written(&fields)
            }
        };
        (kind, order)
    }

    /// The first is of the fields, the second of any kind: the first broken rule in the stated order must give the number.
    fn two_defects(&mut self, fields: &mut Vec<Field>) -> Vec<u8> {
        let (first, second) = (1 + self.index(OF_BYTES - 1), 1 + self.index(TWO_DEFECTS - 1));
        self.damage_fields(first, fields);
        if second >= OF_BYTES {
            return self.damage_bytes(second, fields);
        }
        self.damage_fields(second, fields);
        written(fields)
    }
}
