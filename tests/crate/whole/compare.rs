//! The port against the crate: see tests/crate/run, tests/crate/list, tests/crate/list-days and tests/crate/list-orders.
mod all;
mod counts;
mod day_crate;
mod day_draw;
mod day_list;
mod day_port;
mod days;
mod draw;
mod hours;
mod in_force;
mod near_edge;
mod numbers;
mod order_damage;
mod order_draw;
mod order_list;
mod order_owed;
mod order_port;
mod order_read;
mod orders;
mod plain;
mod row_crate;
mod row_numbers;
mod row_written;
mod rows;
mod settings;
mod sheet_owed;
mod sheet_port;
mod sheets;
mod steps;
mod summary;
mod tally;
mod threads;
mod zones;

use std::panic::catch_unwind;
use std::process::exit;
use summary::Line;

struct Words {
    /// Which comparison; all of them if it is empty.
    what: String,
    seed: u64,
    size: u64,
    instants: u64,
    print_zones: bool,
}

fn default_size(what: &str) -> u64 {
    match what {
        "" => all::DEFAULT_SIZE,
        "list" | "list-days" => 3_000,
        "list-orders" => 1_000,
        "edges" => 100,
        "sheets" => 10_000,
        _ => 1_000_000,
    }
}

fn words() -> Words {
    let mut words = std::env::args().skip(1).peekable();
    let what = words.next_if(|word| !word.starts_with("--")).unwrap_or_default();
    let size = default_size(&what);
    // each instant of an order works its row three times more
    let instants = if what == "orders" { 9 } else { 16 };
    let mut read = Words { what, seed: 1, size, instants, print_zones: false };
    while let Some(word) = words.next() {
        let mut number = || words.next().and_then(|word| word.parse().ok()).unwrap_or_else(|| usage());
        match (read.what.as_str(), word.as_str()) {
            (_, "--seed") => read.seed = number(),
            ("", "--size") => read.size = number(),
            ("", "--long") => read.size = all::LONG_SIZE,
            ("hours", "--pairs") | ("steps", "--cases") | ("days", "--days") => read.size = number(),
            ("rows" | "plain", "--rows") | ("edges", "--places") | ("orders" | "sheets" | "list-orders", "--orders") => read.size = number(),
            ("list" | "list-days", "--lines") => read.size = number(),
            ("days" | "orders", "--instants") => read.instants = number(),
            ("hours" | "plain", "--zones") => read.print_zones = true,
            _ => usage(),
        }
    }
    read
}

/// One comparison with its own table.
macro_rules! single {
    ($compared:expr) => {{
        let compared = $compared;
        compared.print();
        println!();
        let lines = compared.lines();
        summary::print(&lines);
        lines
    }};
}

fn compare(words: &Words) -> Vec<Line> {
    let Words { what, seed, size, instants, print_zones } = words;
    let (seed, size, instants) = (*seed, *size, *instants);
    match what.as_str() {
        "" => return all::all(seed, size),
        "list" => hours::list(seed, size),
        "list-days" => day_list::list_days(seed, size),
        "list-orders" => order_list::list_orders(seed, size),
        "hours" => return single!(hours::hours(seed, size, *print_zones)),
        "steps" => return single!(steps::steps(seed, size)),
        "days" => return single!(days::days(seed, size, instants)),
        "rows" => return single!(rows::rows(seed, size)),
        "plain" => return single!(plain::plain_rows(seed, size, *print_zones)),
        "edges" => return single!(near_edge::near_edge(seed, size)),
        "orders" => return single!(orders::orders(seed, size, instants)),
        "sheets" => return single!(sheets::sheets(seed, size)),
        _ => usage(),
    }
    vec![]
}

fn main() {
    let words = words();
    day_crate::keep_panics();
    let lines = catch_unwind(|| compare(&words)).unwrap_or_else(|_| threads::strayed());
    exit((summary::unexplained(&lines) > 0) as i32)
}

fn usage() -> ! {
    eprintln!("[--seed N] [--size N] [--long], or one comparison:");
    eprintln!("hours [--seed N] [--pairs N] [--zones], steps [--seed N] [--cases N], days [--seed N] [--days N] [--instants N],");
    eprintln!("rows [--seed N] [--rows N], plain [--seed N] [--rows N] [--zones], edges [--seed N] [--places N],");
    eprintln!("orders [--seed N] [--orders N] [--instants N], sheets [--seed N] [--orders N],");
    eprintln!("list [--seed N] [--lines N], list-days [--seed N] [--lines N] or list-orders [--seed N] [--orders N]");
    exit(2)
}
