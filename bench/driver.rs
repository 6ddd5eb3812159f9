//! The product's library and the efficient finder in one process.
//!
//! driver list           the names of the workloads
//! driver count NAME     both sides once, and the library over records, between marks at which the counting emulator says its count
//! driver tries NAME     the reply's line, and the tries of the narrowed and of the plain search
//! driver show NAME      the text

#![no_main] // Rust's start does not run under every emulator of x86-64

#[allow(dead_code)]
#[path = "../tests/boundary.rs"]
mod boundary;
mod ledger;
mod tables;
mod workloads;

#[cfg(standin)]
extern crate standin as _;

use boundary::{Rows, BREACH, NONE, UNUSED};
use efficient::model::Model;
use efficient::search::Search;
use efficient::Found;
use std::hint::black_box;
use tables::Table;
use workloads::{workloads, Workload};

/// The plain search is given up after so many tries.
const MOST_TRIES: u64 = 1_000_000_000;
/// More than any normal text.
const SPACE: usize = 8_192;

extern "C" {
    fn syscall(number: i64, ...) -> i64;
}

/// A system call that no kernel has. The emulator's plug-in answers it with its count.
fn mark(number: i64) {
    unsafe { syscall(0x5A5A_0001, number) };
}

fn efficient_side(workload: &Workload, lent: &mut [u8]) -> (u64, Rows) {
    let text = black_box(&workload.text[..]);
    if workload.normalise {
        let reply = efficient::normalise(text, lent);
        return (
            reply.map_or_else(|why| boundary::refused(why.number, why.place as usize, why.offset as usize), boundary::written),
            [0; 4],
        );
    }
    match efficient::find(text) {
        Found::None => (NONE, [0; 4]),
        Found::Refused(why) => (boundary::refused(why.number, why.place as usize, why.offset as usize), [0; 4]),
        Found::Breach(variables, mut rows) => {
            rows[variables..].fill(UNUSED);
            (BREACH + 256 * variables as u64, rows)
        }
    }
}

fn product_side(workload: &Workload, lent: &mut [u8]) -> (u64, Rows) {
    let text = black_box(&workload.text[..]);
    let mut rows = [0; 4];
    let reply = if workload.normalise { boundary::normalise(text, lent) } else { boundary::find(text, &mut rows) };
    (reply, rows)
}

fn records_side(table: &Table) -> (u64, Rows) {
    let table = black_box(table);
    let mut rows = [0; 4];
    (boundary::find_rows(&table.rows, &table.said, &table.rule, &mut rows), rows)
}

/// Between the first two marks is the cost of a mark. The efficient side allocates, and its first use is not counted.
fn count(workload: &Workload) {
    let (mut left, mut right) = (vec![0; SPACE], vec![0; SPACE]);
    let table =
        (!workload.normalise).then(|| Table::of(&efficient::judge(&workload.text).expect("a text that is not refused").0));
    let efficient = efficient_side(workload, &mut left);
    mark(0);
    mark(1);
    black_box(efficient_side(workload, &mut left));
    mark(2);
    let product = product_side(workload, &mut right);
    mark(3);
    let records = table.as_ref().map(records_side);
    mark(4);
    let same = efficient == product && left == right && records.map_or(true, |records| records == product);
    println!("{}", if same { "same" } else { "DIFFERENT" });
}

fn tries(workload: &Workload) {
    if workload.normalise {
        println!("- - -");
        return;
    }
    let (text, representatives) = efficient::judge(&workload.text).expect("a text that is not refused");
    let model = Model::of(&text, representatives);
    let mut search = Search::of(&model, &text);
    let reply = if search.first().is_some() { "breach" } else { "none" };
    let plain = efficient::plain::tries(&model, &text, MOST_TRIES);
    println!("{} {} {}", reply, search.tries, plain.map_or(format!(">{}", MOST_TRIES), |tries| tries.to_string()));
}

#[no_mangle]
pub extern "C" fn main(_words: i32, _first: *const *const u8) -> i32 {
    let words: Vec<String> = std::env::args().skip(1).collect();
    let all = workloads();
    let named = words.get(1).and_then(|name| all.iter().find(|workload| workload.name == *name));
    match (words.first().map(String::as_str), named) {
        (Some("list"), _) => all.iter().for_each(|workload| println!("{}", workload.name)),
        (Some("count"), Some(workload)) => count(workload),
        (Some("tries"), Some(workload)) => tries(workload),
        (Some("show"), Some(workload)) => print!("{}", String::from_utf8_lossy(&workload.text)),
        _ => return 2,
    }
    0
}
