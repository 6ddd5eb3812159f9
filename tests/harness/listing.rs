//! Every breach of representatives: the library from one to the next, and the program, beside the reference.

use crate::boundary::{self, words, Rows};
use crate::compare::{changed, packed, WATCHED_ROWS};
use crate::programs::Programs;
use reference::breach::{breaches, variables};
use reference::text::read;
use reference::{breaches_prints, next_after, Found};

/// The reference tries every assignment; texts with more than so many are left out.
const ASSIGNMENTS: usize = 20_000;
/// So many members of a list are asked for one after the other.
const MEMBERS: usize = 40;

/// Whether the reference can list the text's breaches in good time. A text with a faulty line has none to list.
fn listed(bytes: &[u8]) -> bool {
    read(bytes).map_or(true, |text| text.rows.len().saturating_pow(variables(&text.patterns) as u32) <= ASSIGNMENTS)
}

pub fn program_difference(bytes: &[u8], programs: &Programs) -> Option<String> {
    if !listed(bytes) {
        return None;
    }
    programs.difference("breaches", bytes, &breaches_prints(bytes))
}

/// From one breach to the next, and after some assignments that need not be any.
pub fn differences(bytes: &[u8]) -> Vec<String> {
    if !listed(bytes) {
        return Vec::new();
    }
    let mut starts = vec![[0; 4], [255; 4], [1, 0, 65_535, 7], WATCHED_ROWS];
    if let Ok(text) = read(bytes) {
        starts.extend(breaches(&text).take(MEMBERS).map(|rows| boundary::breach(&rows).1));
    }
    starts.iter().filter_map(|start| next_difference(bytes, start)).collect()
}

fn next_difference(bytes: &[u8], start: &Rows) -> Option<String> {
    let (reply, rows) = match next_after(bytes, &start.map(usize::from)) {
        Found::Breach(rows) => boundary::breach(&rows),
        Found::None => (boundary::NONE, *start),
        Found::Refused(refused) => (packed(&refused), *start),
    };
    let mut got_rows = *start;
    let got = boundary::next(bytes, &mut got_rows);
    if (got, got_rows) == (reply, rows) {
        return None;
    }
    let says = |reply: u64, rows: &Rows| format!("{}{}", words(reply), changed(rows));
    Some(format!("next after {:?}: {}, the reference says {}", start, says(got, &got_rows), says(reply, &rows)))
}
