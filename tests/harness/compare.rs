//! One text through the library, the programs and the reference: what differs, in words.

use crate::boundary::{self, words, Rows};
use crate::listing;
use crate::programs::Programs;
use crate::random::Random;
use crate::tables;
use reference::breach::{first_breach, first_breach_anew};
use reference::text::Refusal;
use reference::{find, find_prints, normalise, normalise_prints, rule, Found};

/// What stands in a lent byte, and in a row's place, before a call.
const WATCH: u8 = 0xA5;
pub const WATCHED_ROWS: Rows = [0xA5A5; 4];
/// Bytes watched on either side of the lent space.
const MARGIN: usize = 64;
/// Lent spaces are tried this much shorter and longer than the need.
const AROUND: usize = 9;

/// A text, and the lent space of its first call of the normaliser.
pub struct Case {
    pub text: Vec<u8>,
    pub space: usize,
    pub every_space: bool,
    pub by_programs: bool,
    pub anew: bool,
}

/// A case of a text. The space is mostly enough; at times it is shorter than the need.
pub fn case_of(random: &mut Random, text: Vec<u8>, by_programs: bool) -> Case {
    let need = need_of(&text);
    let short = need > 0 && random.one_in(12);
    let space = if short { random.below(need) } else { need + random.below(40) };
    Case { space, every_space: random.one_in(12), by_programs, anew: random.one_in(8), text }
}

/// How long the normal text is, or 0 where there is none.
fn need_of(text: &[u8]) -> usize {
    normalise(text, usize::MAX).map_or(0, |normal| normal.len())
}

/// Every way in which the replies to a case differ from the reference's.
pub fn differences(case: &Case, programs: &Programs) -> Vec<String> {
    let mut said = Vec::new();
    said.extend(finder_difference(&case.text));
    said.extend(spaces(case).into_iter().filter_map(|space| normaliser_difference(&case.text, space)));
    if case.by_programs {
        said.extend(programs.difference("find", &case.text, &find_prints(&case.text)));
        said.extend(programs.difference("normalise", &case.text, &normalise_prints(&case.text)));
        said.extend(listing::program_difference(&case.text, programs));
    }
    if said.is_empty() {
        said.extend(tables::differences(&case.text));
        said.extend(listing::differences(&case.text)); // a wrong finder may end the process on its own assignments
    }
    if case.anew {
        said.extend(reference_difference(&case.text));
    }
    said
}

fn spaces(case: &Case) -> Vec<usize> {
    let need = need_of(&case.text);
    let mut spaces = vec![case.space, 0, need];
    if case.every_space {
        spaces.extend(need.saturating_sub(AROUND)..=need + AROUND);
    } else {
        spaces.extend(need.checked_sub(1));
    }
    spaces
}

fn finder_difference(text: &[u8]) -> Option<String> {
    let (reply, rows) = match find(text) {
        Found::Breach(rows) => boundary::breach(&rows),
        Found::None => (boundary::NONE, WATCHED_ROWS),
        Found::Refused(refused) => (packed(&refused), WATCHED_ROWS),
    };
    let mut got_rows = WATCHED_ROWS;
    let got = boundary::find(text, &mut got_rows);
    if (got, got_rows) == (reply, rows) {
        return None;
    }
    Some(format!("find: {}{}, the reference says {}{}", words(got), changed(&got_rows), words(reply), changed(&rows)))
}

/// The rows in words, where they were written.
pub fn changed(rows: &Rows) -> String {
    if *rows == WATCHED_ROWS {
        return String::new();
    }
    format!(" with rows {:?}", rows)
}

pub fn packed(refused: &Refusal) -> u64 {
    boundary::refused(refused.number, refused.place, refused.offset)
}

fn normaliser_difference(text: &[u8], space: usize) -> Option<String> {
    let mut lent = vec![WATCH; MARGIN + space + MARGIN];
    let mut after = lent.clone();
    let reply = match normalise(text, space) {
        Err(refused) => packed(&refused),
        Ok(normal) => {
            after[MARGIN..MARGIN + normal.len()].copy_from_slice(&normal);
            boundary::written(normal.len())
        }
    };
    let got = boundary::normalise(text, &mut lent[MARGIN..MARGIN + space]);
    if got != reply {
        return Some(format!("normalise with {} bytes lent: {}, the reference says {}", space, words(got), words(reply)));
    }
    let place = (0..lent.len()).find(|place| lent[*place] != after[*place])?;
    let (byte, expected) = (lent[place], after[place]);
    let place = place as isize - MARGIN as isize;
    Some(format!("normalise with {} bytes lent: byte {} is {:02X}, it should be {:02X}", space, place, byte, expected))
}

/// The reference against itself, closing anew under each assignment, where that is not too long.
fn reference_difference(bytes: &[u8]) -> Option<String> {
    let text = rule(bytes).ok()?;
    if text.rows.len() + text.patterns.len() > 24 {
        return None;
    }
    let (once, anew) = (first_breach(&text), first_breach_anew(&text));
    if once == anew {
        return None;
    }
    Some(format!("reference: first breach {:?}, closing anew {:?}", once, anew))
}
