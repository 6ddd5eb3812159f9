//! A text that is being made: one list of fields a line, written out as digits.

use crate::random::Random;
use reference::normal::line;
use reference::text::{Literal, Pattern, Row, Text};

/// The fields of each line.
pub type Draft = Vec<Vec<u8>>;

pub fn draft_of(text: &Text) -> Draft {
    let mut draft: Draft = Vec::new();
    draft.extend(text.rows.iter().map(|row| row_fields(1, row)));
    draft.extend(text.equations.iter().map(|pair| vec![2, pair.0 as u8, pair.1 as u8]));
    draft.extend(text.differences.iter().map(|pair| vec![3, pair.0 as u8, pair.1 as u8]));
    draft.extend(text.patterns.iter().map(pattern_fields));
    draft.extend(text.literals.iter().map(literal_fields));
    draft
}

/// The statements in some other order; equations and differences then stand among each other.
pub fn shuffle_statements(random: &mut Random, draft: &mut Draft) {
    let statements: Vec<usize> = (0..draft.len()).filter(|place| rank_of(&draft[*place]) == 2).collect();
    for (last, place) in statements.iter().enumerate() {
        draft.swap(*place, statements[random.below(last + 1)]);
    }
}

pub fn bytes_of(draft: &Draft) -> Vec<u8> {
    draft.iter().flat_map(|fields| line(fields)).collect()
}

pub fn row_fields(kind: u8, row: &Row) -> Vec<u8> {
    let mut fields = vec![kind, (row.symbol / 256) as u8, (row.symbol % 256) as u8, row.arguments.len() as u8];
    fields.extend(row.arguments.iter().map(|argument| *argument as u8));
    fields
}

fn pattern_fields(pattern: &Pattern) -> Vec<u8> {
    match pattern {
        Pattern::Variable(number) => vec![4, *number as u8],
        Pattern::Symbol(row) => row_fields(5, row),
    }
}

fn literal_fields(literal: &Literal) -> Vec<u8> {
    vec![if literal.equal { 6 } else { 7 }, literal.sides.0 as u8, literal.sides.1 as u8]
}

pub fn rank_of(fields: &[u8]) -> u8 {
    match fields[0] {
        1 => 1,
        2 | 3 => 2,
        4 | 5 => 3,
        _ => 4,
    }
}
