//! The functions of the C boundary over the reference: what stands in for the library, rightly or, after an edit, wrongly. Besides,
//! what stands in for the programs that write and judge grounds.

#[path = "../boundary.rs"]
#[allow(dead_code)]
mod boundary;
#[path = "../records.rs"]
#[allow(dead_code)]
mod records;

use boundary::{breach, refused, written, Record, Rows, Rule, Statements, NONE, UNFIT};
use records::said_by;
use reference::grounds::verify_prints;
use reference::writing::grounds_prints;
use reference::{find, find_in, next_after, normalise, Found};

pub fn program(name: &str, input: &[u8]) -> Vec<u8> {
    match name {
        "grounds" => grounds_prints(input),
        _ => verify_prints(input),
    }
}

/// # Safety
/// `text` has `length` bytes.
#[no_mangle]
pub unsafe extern "C" fn checker_find(text: *const u8, length: usize, rows: &mut Rows) -> u64 {
    packed(find(std::slice::from_raw_parts(text, length)), rows)
}

/// # Safety
/// `text` has `length` bytes.
#[no_mangle]
pub unsafe extern "C" fn checker_next(text: *const u8, length: usize, rows: &mut Rows) -> u64 {
    let after = rows.map(usize::from);
    packed(next_after(std::slice::from_raw_parts(text, length), &after), rows)
}

/// # Safety
/// `rows` has `count` records.
#[no_mangle]
pub unsafe extern "C" fn checker_find_rows(
    rows: *const Record,
    count: usize,
    said: &Statements,
    rule: &Rule,
    places: &mut Rows,
) -> u64 {
    match said_by(std::slice::from_raw_parts(rows, count), said, rule) {
        None => UNFIT,
        Some(text) => packed(find_in(text), places),
    }
}

fn packed(found: Found, rows: &mut Rows) -> u64 {
    match found {
        Found::None => NONE,
        Found::Refused(why) => refused(why.number, why.place, why.offset),
        Found::Breach(found) => {
            let (reply, places) = breach(&found);
            *rows = places;
            reply
        }
    }
}

/// # Safety
/// `text` has `length` bytes, and `lent` has `space`.
#[no_mangle]
pub unsafe extern "C" fn checker_normalise(text: *const u8, length: usize, lent: *mut u8, space: usize) -> u64 {
    let lent = std::slice::from_raw_parts_mut(lent, space);
    match normalise(std::slice::from_raw_parts(text, length), space) {
        Err(why) => refused(why.number, why.place, why.offset),
        Ok(normal) => {
            let bytes = normal.len();
            lent[..bytes].copy_from_slice(&normal);
            written(bytes)
        }
    }
}
