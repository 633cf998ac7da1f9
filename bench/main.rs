//! The crate and the port in one process: see bench/run. The modules of tests/crate draw the orders and call the port.
#![allow(dead_code)]
#[path = "../day_crate.rs"]
mod day_crate;
#[path = "../day_draw.rs"]
mod day_draw;
mod days;
#[path = "../draw.rs"]
mod draw;
mod functions;
#[path = "../in_force.rs"]
mod in_force;
mod memory;
#[path = "../order_draw.rs"]
mod order_draw;
#[path = "../order_port.rs"]
mod order_port;
#[path = "../order_read.rs"]
mod order_read;
mod orders;
mod pages;
mod rounds;
#[path = "../settings.rs"]
mod settings;
#[path = "../sheet_port.rs"]
mod sheet_port;
mod sheets;

use std::io::{stdin, Read};
use std::process::{exit, Command};

const ROWS: &str = "| what | port, a second | crate, a second | port, ns | crate, ns | ratio of the rates | its spread |";
const MEMORY: &str = "| a sheet of 250 rows | port's program, KB | crate's, KB | ratio |";
const CELLS: &str = "| cells, by the row | ns | the sheet's ns | ratio | its spread |";
const FUNCTIONS: &str = "| function | ns | platform's ns | ratio | its spread |";

fn head(columns: &str) {
    println!("{columns}\n{}", columns.split('|').skip(2).map(|_| "|---").collect::<String>() + "|");
}

/// The peaks of the port's program and of this one as `bench/run sheet`, which is the crate's.
fn memory() {
    let order = &orders::orders(1, 250)[0];
    let (port, sheet) = memory::peak(&mut Command::new(sheet_port::PROGRAM), &order.bytes);
    let this = std::env::current_exe().unwrap();
    let (other, same) = memory::peak(Command::new(this).arg("sheet"), &order.bytes);
    assert!(sheet == same && port > 0 && other > 0);
    println!("| peak of its memory | {port} | {other} | {:.2} |", port as f64 / other as f64);
}

/// The crate's sheet of an order on standard input.
fn print_sheet() {
    let mut order = Vec::new();
    stdin().read_to_end(&mut order).unwrap();
    print!("{}", sheets::by_crate(&orders::Order::new(order)));
}

/// For a profiler: so many days or sheets by one side, and nothing timed.
fn work(side: &str, count: &str) {
    let count = count.parse().unwrap();
    match side {
        "port" => days::by_port(&orders::orders(count, 1)),
        "crate" => days::by_crate(&orders::orders(count, 1)),
        _ => sheets::by_port(&orders::orders(count, 250)),
    }
}

fn cells() {
    head(CELLS);
    pages::pages();
}

fn tables() {
    head(ROWS);
    days::days();
    sheets::whole();
    sheets::growing();
    days::reading();
    println!();
    head(MEMORY);
    memory();
    println!();
    cells();
    println!();
    head(FUNCTIONS);
    functions::functions();
}

fn main() {
    let words: Vec<String> = std::env::args().skip(1).collect();
    let words: Vec<&str> = words.iter().map(String::as_str).collect();
    match words[..] {
        [] if !sheets::are_equal() => {
            eprintln!("bench: the two print different sheets, so that times say nothing");
            exit(1)
        }
        [] => tables(),
        ["sheet"] => print_sheet(),
        ["cells"] => cells(),
        [side, count] => work(side, count),
        _ => exit(2),
    }
}
