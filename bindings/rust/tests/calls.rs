//! Every call, on the examples of the repository.
use katchidul::*;

fn example(name: &str) -> Vec<u8> {
    std::fs::read(format!("{}/../../examples/{name}", env!("CARGO_MANIFEST_DIR"))).unwrap()
}

#[test]
fn the_library_has_the_crate_s_version() {
    assert_eq!(version(), VERSION);
}

#[test]
fn rows_are_those_of_the_sheets() {
    for name in ["durham-june", "durham-ramadan", "tromso"] {
        let (order, sheet) = (example(&format!("{name}.order")), example(&format!("{name}.sheet")));
        let lines: Vec<_> = std::str::from_utf8(&sheet).unwrap().split_inclusive('\n').skip(2).collect();
        assert_eq!(lines.len(), read_order(&order).unwrap().rows as usize);
        for (row, line) in lines.iter().enumerate() {
            match write_row(&order, row as u32) {
                Ok(written) => assert_eq!(&written, line),
                Err(refused) => assert!(line.contains(&format!(" refused {} day {}", refused.refusal.number(), refused.place))),
            }
        }
    }
}

#[test]
fn an_order_that_was_written_is_read_back() {
    for name in ["durham-june", "durham-map", "durham-ramadan", "longest", "dunedin-season", "west-carried", "pontianak"] {
        let bytes = example(&format!("{name}.order"));
        let order = read_order(&bytes).unwrap();
        let again = write_order(&order).unwrap();
        assert_eq!(read_order(&again).unwrap(), order);
        assert_eq!(work_day(&again, 0), work_day(&bytes, 0));
    }
    let order = Order { rows: 401, ..read_order(&example("durham-june.order")).unwrap() };
    assert_eq!(write_order(&order).unwrap_err(), Refused { refusal: Refusal::OutOfRange, place: 3 });
}

#[test]
fn the_nine_times_and_the_prayer_in_force() {
    let order = example("durham-june.order");
    let times = work_day(&order, 0).unwrap();
    assert_eq!(times.time(Prayer::Sunrise) - times.fajr, 3 * 3600 + 31 * 60);
    assert_eq!(times.fajr_tomorrow - times.fajr, 86_370);
    assert_eq!(prayer_at(&order, 0, times.fajr.into()), Ok(Some(Prayer::Fajr)));
    assert_eq!(prayer_at(&order, 0, (times.fajr - 1).into()), Ok(None));
    assert_eq!(next_at(&order, 0, times.fajr.into()), Ok(Prayer::Sunrise));
    assert_eq!(remaining_at(&order, 0, times.fajr.into()), Ok((3, 31)));
    assert_eq!(next_at(&order, 0, (times.fajr - 1).into()).unwrap_err().refusal, Refusal::NoneInForce);
    let half_a_second_before = std::time::UNIX_EPOCH - std::time::Duration::from_millis(500);
    assert_eq!(Instant::from(half_a_second_before), Instant { seconds: -1, nanoseconds: 500_000_000 });
}

#[test]
fn pages_are_their_rows() {
    let order = example("durham-clock.order");
    let pages = [write_page(&order, 1).unwrap(), write_page(&order, 2).unwrap()];
    let rows: Vec<_> = (0..30).map(|row| write_cells(&order, row).unwrap()).collect();
    assert_eq!(pages.iter().map(|page| page.rows).collect::<Vec<_>>(), [25, 5]);
    assert_eq!(
        pages.iter().flat_map(|page| page.cells.clone()).collect::<Vec<_>>(),
        rows.iter().flat_map(|row| row.cells.clone()).collect::<Vec<_>>()
    );
    assert_eq!(pages.iter().map(|page| page.dots).sum::<u32>(), 2653);
    assert_eq!(write_page(&order, 3).unwrap_err(), Refused { refusal: Refusal::OutOfRange, place: 3 });
}

#[test]
fn the_queue_gives_a_page_a_turn() {
    let mut queue = Queue::default();
    queue.join(7, 2).unwrap();
    queue.join(8, 1).unwrap();
    assert_eq!(queue.join(7, 1).unwrap_err().refusal, Refusal::JobUnfit);
    let turns: Vec<_> = std::iter::from_fn(|| queue.turn()).collect();
    assert_eq!(turns, [Turn { id: 7, pages: 1 }, Turn { id: 8, pages: 0 }, Turn { id: 7, pages: 0 }]);
    assert_eq!(queue.jobs(), 0);
}

#[test]
fn a_log_is_compacted_and_restarted() {
    let mut log = Log::default();
    for page in 1..=8 {
        log = append(&log.bytes, Record::Sent, page, 25).unwrap();
        log = append(&log.bytes, Record::Done, page, 25).unwrap();
    }
    log = append(&log.bytes, Record::Sent, 9, 25).unwrap();
    assert_eq!((log.finished, log.sent), (8, 9));
    assert_eq!(read_log(&log.bytes).unwrap(), log);
    assert_eq!(restart(&log.bytes, 9, 25).unwrap().bytes, [3, 0, 2, 0, 9]);
    assert_eq!(restart(&log.bytes, 10, 25).unwrap_err(), Refused { refusal: Refusal::LogCountOutside, place: 10 });
    assert_eq!(append(&log.bytes, Record::Sent, 11, log_room(PAGES_MAX)).unwrap_err().refusal, Refusal::LogOutOfTurn);
}

#[test]
fn a_refusal_is_its_sentence() {
    let refused = read_order(&[]).unwrap_err();
    assert_eq!(refused.to_string(), "Refusal 4: the order lacks a field: town, tag 1");
    assert_eq!(Refused::from_sentence(&refused.to_string()), Ok(refused));
    assert_eq!(Refused::from_sentence("none").unwrap_err().refusal, Refusal::OutOfRange);
    for number in 1..=18 {
        assert_eq!(Refusal::from_number(number).unwrap().number(), number);
    }
    assert_eq!((Refusal::from_number(0), Refusal::from_number(19)), (None, None));
}

#[test]
fn a_place_on_the_map() {
    let west = Map { south_or_west: true, degrees: 1, minutes: 35, seconds: 5, hundredths: 64 };
    assert_eq!(map_longitude(-1.5849), Ok(west));
    assert_eq!(map_latitude(91.0).unwrap_err(), Refused { refusal: Refusal::OutOfRange, place: 18 });
}
