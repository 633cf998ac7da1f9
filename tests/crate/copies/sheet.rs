// Appended to root.rs as a program: reads an order, which must not be refused, and prints its sheet by the crate. If the crate panics in
// SolarTime::new, on the line of the missing time, the day is refused.
use astronomy::solar::SolarTime;
use astronomy::unit::Coordinates;
use chrono::{Duration, NaiveDate};
use models::adjustments::TimeAdjustment;
use models::parameters::Parameters;
use schedule::{access, PrayerTimes};
use std::collections::HashMap;
use std::io::Read;
use std::panic::{catch_unwind, set_hook};
use std::sync::atomic::{AtomicUsize, Ordering};

const SOLAR: &str = include_str!("astronomy/solar.rs");
static PANICKED: AtomicUsize = AtomicUsize::new(0);

type Fields = HashMap<u8, Vec<u8>>;

fn fields(order: &[u8]) -> Fields {
    let (mut fields, mut at) = (Fields::new(), 0);
    while at < order.len() {
        let end = at + 3 + order[at + 1] as usize * 256 + order[at + 2] as usize;
        fields.insert(order[at], order[at + 3..end].to_vec());
        at = end;
    }
    fields
}

fn float(value: &Vec<u8>) -> f64 {
    f64::from_be_bytes(value[..].try_into().unwrap())
}

/// A coordinate as a float, or as on the map.
fn coordinate(fields: &Fields, tag: u8, map: u8) -> f64 {
    let Some(value) = fields.get(&map) else { return float(&fields[&tag]) };
    let [sign, degrees, minutes, seconds, hundredths] = value[..].try_into().map(|parts: [u8; 5]| parts.map(i32::from)).unwrap();
    let count = degrees * 360_000 + minutes * 6_000 + seconds * 100 + hundredths;
    (if sign == 1 { -count } else { count }) as f64 / 360_000.0
}

fn signed(value: &[u8]) -> i64 {
    i16::from_be_bytes([value[0], value[1]]) as i64
}

/// The method's parameters; then each tag that is there sets its own field.
fn parameters(fields: &Fields) -> Parameters {
    use models::high_altitude_rule::HighLatitudeRule::*;
    use models::madhab::Madhab::*;
    use models::method::Method::*;
    use models::rounding::Rounding;
    use models::shafaq::Shafaq::*;
    let methods = [
        MuslimWorldLeague, Egyptian, Karachi, UmmAlQura, Dubai, MoonsightingCommittee, NorthAmerica, Kuwait, Qatar, Singapore, Tehran, Turkey,
        Other,
    ];
    let mut p = methods[fields[&6][0] as usize].parameters();
    for (&tag, value) in fields {
        let number = value[0] as usize;
        match tag {
            7 => p.madhab = [Shafi, Hanafi][number - 1],
            8 => p.high_latitude_rule = [MiddleOfTheNight, SeventhOfTheNight, TwilightAngle][number],
            9 => p.rounding = [Rounding::Nearest, Rounding::Up, Rounding::None][number],
            10 => p.shafaq = [General, Ahmer, Abyad][number],
            11 => {
                let m: Vec<i64> = value.chunks(2).map(signed).collect();
                p.adjustments = TimeAdjustment::new(m[0], m[1], m[2], m[3], m[4], m[5]);
            }
            12 => p.fajr_angle = float(value),
            13 => p.isha_angle = float(value),
            14 => p.isha_interval = signed(value) as i32,
            _ => {}
        }
    }
    p
}

/// The first of the date and the two days after it that lacks a time, and the refusal's number.
fn refused(date: NaiveDate, place: Coordinates) -> Option<(usize, i64)> {
    (0..3).find_map(|day| {
        let midnight = (date + Duration::days(day)).and_hms_opt(0, 0, 0).unwrap().and_utc();
        catch_unwind(|| SolarTime::new(midnight, place)).err()?;
        let line = SOLAR.lines().nth(PANICKED.load(Ordering::Relaxed) - 1).unwrap().trim_start();
        let number = ["transit: ", "sunrise: ", "sunset: "].iter().position(|field| line.starts_with(field));
        Some((6 + number.expect("a panic of another line"), day))
    })
}

/// A time as signed days from a date, and the clock.
fn written(time: i64, midnight: i64) -> String {
    let (days, seconds) = ((time - midnight).div_euclid(86400), (time - midnight).rem_euclid(86400));
    format!(" {days:+}T{:02}:{:02}:{:02}", seconds / 3600, seconds / 60 % 60, seconds % 60)
}

fn main() {
    set_hook(Box::new(|info| PANICKED.store(info.location().unwrap().line() as usize, Ordering::Relaxed)));
    let mut order = Vec::new();
    std::io::stdin().read_to_end(&mut order).unwrap();
    let fields = fields(&order);
    let chosen = |tag| fields.get(&tag).is_some_and(|value: &Vec<u8>| value[0] == 1);
    rules::choose(chosen(15), chosen(17));
    let (place, parameters) = (Coordinates::new(coordinate(&fields, 4, 18), coordinate(&fields, 5, 19)), parameters(&fields));
    let first = &fields[&2];
    let first = NaiveDate::from_ymd_opt(signed(first) as i32, first[2] as u32, first[3] as u32).unwrap();
    println!("{}", std::str::from_utf8(&fields[&1]).unwrap());
    // A Ramadan sheet has imsak before Fajr, worked here from the crate's own Fajr.
    let imsak = fields.get(&20).map(|value| 60 * value[0] as i64);
    println!("date{} fajr sunrise dhuhr asr maghrib isha middle qiyam tomorrow", if imsak.is_some() { " imsak" } else { "" });
    let rows = fields[&3].iter().fold(0, |rows, byte| rows * 256 + *byte as i64);
    for row in 0..rows {
        let date = first + Duration::days(row);
        if let Some((number, day)) = refused(date, place) {
            println!("{date} refused {number} day {day}");
            continue;
        }
        let midnight = date.and_hms_opt(0, 0, 0).unwrap().timestamp();
        let times = access::nine(&PrayerTimes::new(date, place, parameters));
        let before = imsak.map_or(String::new(), |seconds| written(times[0] - seconds, midnight));
        println!("{date}{before}{}", times.map(|time| written(time, midnight)).concat());
    }
}
