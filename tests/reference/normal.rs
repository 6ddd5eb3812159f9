//! The normal text of a context, and lines of fields.

use crate::text::{Pair, Row, Text};

/// Two digits a field, and a line feed.
pub fn line(fields: &[u8]) -> Vec<u8> {
    let digits: String = fields.iter().map(|field| format!("{:02X}", field)).collect();
    format!("{}\n", digits).into_bytes()
}

/// The rows as given; an equation for each row that is not its representative; the differences of representatives, sorted.
pub fn normal_text(text: &Text, class: &[usize]) -> Vec<u8> {
    let rows = text.rows.iter().map(row_line);
    let equations = equations(class).into_iter().map(|pair| pair_line(2, pair));
    let differences = differences(text, class).into_iter().map(|pair| pair_line(3, pair));
    rows.chain(equations).chain(differences).flatten().collect()
}

fn row_line(row: &Row) -> Vec<u8> {
    let head = [1, (row.symbol / 256) as u8, (row.symbol % 256) as u8, row.arguments.len() as u8];
    let arguments: Vec<u8> = row.arguments.iter().map(|argument| *argument as u8).collect();
    line(&[&head[..], &arguments[..]].concat())
}

fn pair_line(kind: u8, (left, right): Pair) -> Vec<u8> {
    line(&[kind, left as u8, right as u8])
}

fn equations(class: &[usize]) -> Vec<Pair> {
    let others = class.iter().enumerate().filter(|(row, lowest)| row != *lowest);
    others.map(|(row, lowest)| (*lowest, row)).collect()
}

fn differences(text: &Text, class: &[usize]) -> Vec<Pair> {
    let lower_first = |&(p, q): &Pair| (class[p].min(class[q]), class[p].max(class[q]));
    let mut pairs: Vec<Pair> = text.differences.iter().map(lower_first).collect();
    pairs.sort();
    pairs.dedup();
    pairs
}
