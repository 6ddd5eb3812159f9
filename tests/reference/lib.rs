//! An independent checker, written from the rules of the text alone. Obvious before fast: it closes by comparing all pairs
//! of terms, and tries every assignment in order.

pub mod breach;
pub mod closing;
pub mod grounds;
pub mod normal;
pub mod text;
pub mod writing;

use breach::{breaches, first_breach, variables};
use closing::{close, first_clash};
use text::{read, refusal, Refusal, Text};

/// What the finder replies.
#[derive(Clone, Debug, PartialEq)]
pub enum Found {
    Breach(Vec<usize>),
    None,
    Refused(Refusal),
}

pub fn find(bytes: &[u8]) -> Found {
    read(bytes).map_or_else(Found::Refused, find_in)
}

/// What it replies to a text that has no faulty line and says this.
pub fn find_in(text: Text) -> Found {
    match judge(text) {
        Err(refused) => Found::Refused(refused),
        Ok(None) => Found::None,
        Ok(Some(rows)) => Found::Breach(rows),
    }
}

fn judge(text: Text) -> Result<Option<Vec<usize>>, Refusal> {
    let text = ruled(text)?;
    Ok(first_breach(&text))
}

/// A text with a rule. After the faulty lines 8, then 9.
pub fn rule(bytes: &[u8]) -> Result<Text, Refusal> {
    ruled(read(bytes)?)
}

fn ruled(text: Text) -> Result<Text, Refusal> {
    if text.literals.is_empty() {
        return Err(refusal(8, 0));
    }
    let class = close(&text.rows, &text.equations);
    match first_clash(&class, &text.differences) {
        Some(ordinal) => Err(refusal(9, ordinal)),
        None => Ok(text),
    }
}

/// The first breach of representatives after an assignment, of which as many places are read as there are variables.
pub fn next_after(bytes: &[u8], after: &[usize]) -> Found {
    match rule(bytes) {
        Err(refused) => Found::Refused(refused),
        Ok(text) => {
            let given = &after[..variables(&text.patterns)];
            let next = breaches(&text).find(|rows| &rows[..] > given);
            next.map_or(Found::None, Found::Breach)
        }
    }
}

/// The normal text, for which so much space is lent. After the faulty lines 9, then 10.
pub fn normalise(bytes: &[u8], space: usize) -> Result<Vec<u8>, Refusal> {
    let text = read(bytes)?;
    let class = close(&text.rows, &text.equations);
    if let Some(ordinal) = first_clash(&class, &text.differences) {
        return Err(refusal(9, ordinal));
    }
    let normal = normal::normal_text(&text, &class);
    if normal.len() > space {
        return Err(refusal(10, 0));
    }
    Ok(normal)
}

/// What a program takes in.
pub const INPUT_LIMIT: usize = 16_384;

/// What the finder program prints.
pub fn find_prints(input: &[u8]) -> Vec<u8> {
    if input.len() > INPUT_LIMIT {
        return refusal_line(&refusal(11, 0));
    }
    found_line(&find(input))
}

/// What the normaliser program prints.
pub fn normalise_prints(input: &[u8]) -> Vec<u8> {
    if input.len() > INPUT_LIMIT {
        return refusal_line(&refusal(11, 0));
    }
    normalise(input, usize::MAX).unwrap_or_else(|refused| refusal_line(&refused))
}

/// What the program prints that lists every breach of representatives.
pub fn breaches_prints(input: &[u8]) -> Vec<u8> {
    if input.len() > INPUT_LIMIT {
        return refusal_line(&refusal(11, 0));
    }
    match rule(input) {
        Err(refused) => refusal_line(&refused),
        Ok(text) => {
            let lines = breaches(&text).map(Found::Breach).chain([Found::None]);
            lines.flat_map(|found| found_line(&found)).collect()
        }
    }
}

pub fn found_line(found: &Found) -> Vec<u8> {
    match found {
        Found::Breach(rows) => {
            let rows: Vec<u8> = rows.iter().map(|row| *row as u8).collect();
            normal::line(&[&[8, rows.len() as u8], &rows[..]].concat())
        }
        Found::None => normal::line(&[9]),
        Found::Refused(refused) => refusal_line(refused),
    }
}

pub fn refusal_line(refused: &Refusal) -> Vec<u8> {
    let bytes = |number: usize| [(number / 256) as u8, (number % 256) as u8];
    normal::line(&[&[10, refused.number], &bytes(refused.place)[..], &bytes(refused.offset)[..]].concat())
}
