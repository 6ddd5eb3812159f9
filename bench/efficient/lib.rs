//! An efficient finder and normaliser, unproved: what a good implementation costs. One pass over the bytes, congruence closure
//! by a work list, and a search that narrows the candidates of the variables before each choice. What differs by what follows is
//! asked last, and once for each pair.

pub mod closing;
mod differing;
pub mod model;
pub mod narrow;
pub mod plain;
pub mod search;
pub mod sets;
pub mod text;
pub mod values;
mod writing;

use model::Model;
use text::{read, refusal, Refusal, Text};

#[derive(Clone, Copy, Debug, PartialEq)]
pub enum Found {
    Breach(usize, [u16; 4]),
    None,
    Refused(Refusal),
}

pub fn find(bytes: &[u8]) -> Found {
    read(bytes).map_or_else(Found::Refused, find_in)
}

/// The reply to a text that has no faulty line and says this.
#[inline(always)]
pub fn find_in(text: Text) -> Found {
    match ruled(text) {
        Err(why) => Found::Refused(why),
        Ok((text, representatives)) => {
            let model = Model::of(&text, representatives);
            let mut search = search::Search::of(&model, &text);
            reply(&text, search.first())
        }
    }
}

/// The first breach of representatives after an assignment.
pub fn next(bytes: &[u8], after: [u16; 4]) -> Found {
    match judge(bytes) {
        Err(why) => Found::Refused(why),
        Ok((text, representatives)) => {
            let model = Model::of(&text, representatives);
            reply(&text, plain::next(&model, &text, after))
        }
    }
}

/// The representatives of a text that the finder does not refuse.
pub fn judge(bytes: &[u8]) -> Result<(Text, Vec<u16>), Refusal> {
    ruled(read(bytes)?)
}

#[inline(always)]
fn ruled(text: Text) -> Result<(Text, Vec<u16>), Refusal> {
    if text.literals.is_empty() {
        return Err(refusal(8, 0));
    }
    let representatives = consistent(&text)?;
    Ok((text, representatives))
}

pub fn reply(text: &Text, first: Option<[u16; 4]>) -> Found {
    first.map_or(Found::None, |rows| Found::Breach(text.variables, rows))
}

/// The representatives, or refusal 9.
fn consistent(text: &Text) -> Result<Vec<u16>, Refusal> {
    let representatives = closing::close(&text.rows, &text.equations);
    let same = |pair: &(u16, u16)| representatives[pair.0 as usize] == representatives[pair.1 as usize];
    match text.differences.iter().position(same) {
        Some(index) => Err(refusal(9, index as u16 + 1)),
        None => Ok(representatives),
    }
}

/// Writes the normal text, and gives its length.
pub fn normalise(bytes: &[u8], lent: &mut [u8]) -> Result<usize, Refusal> {
    let text = read(bytes)?;
    let representatives = consistent(&text)?;
    writing::write_normal(bytes, &text, &representatives, lent)
}
