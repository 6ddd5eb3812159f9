//! What records, statements and a rule say, from the words of include/checker.h: a text, or nothing where they are not well-formed.

use crate::boundary::{Record, Rule, Statements};
use reference::text::{Literal, Pair, Pattern, Row, Text};
use reference::text::{MOST_ARGUMENTS, MOST_LITERALS, MOST_PATTERNS, MOST_ROWS, MOST_VARIABLES};

/// Equations and differences together.
pub const MOST_STATEMENTS: usize = 510;

pub fn said_by(rows: &[Record], said: &Statements, rule: &Rule) -> Option<Text> {
    let mut text = Text::default();
    if rows.len() > MOST_ROWS || said.count > MOST_STATEMENTS || rule.patterns > MOST_PATTERNS || rule.literals > MOST_LITERALS {
        return None;
    }
    for record in rows {
        let row = row_of(text.rows.len(), record.symbol, record.count, &record.args)?;
        text.rows.push(row);
    }
    for place in 0..said.count {
        let pair = pair_of(text.rows.len(), said.lefts[place], said.rights[place])?;
        if said.kinds[place] == 2 {
            text.equations.push(pair);
        } else {
            text.differences.push(pair);
        }
    }
    for place in 0..rule.patterns {
        let pattern = pattern_of(rule, place)?;
        text.patterns.push(pattern);
    }
    for place in 0..rule.literals {
        let sides = pair_of(rule.patterns, rule.lefts[place], rule.rights[place])?;
        text.literals.push(Literal { equal: rule.signs[place] == 6, sides });
    }
    Some(text)
}

/// A row over earlier ones. Arguments from the count on say nothing.
fn row_of(earlier: usize, symbol: u16, count: u8, args: &[u16]) -> Option<Row> {
    let count = usize::from(count);
    if count > MOST_ARGUMENTS {
        return None;
    }
    let arguments = args[..count].iter().map(|row| below(earlier, *row)).collect::<Option<_>>()?;
    Some(Row { symbol, arguments })
}

/// A variable has no count and no arguments.
fn pattern_of(rule: &Rule, place: usize) -> Option<Pattern> {
    let head = rule.heads[place];
    if rule.kinds[place] == 4 {
        return below(MOST_VARIABLES, head).map(Pattern::Variable);
    }
    row_of(place, head, rule.counts[place], &rule.args[4 * place..]).map(Pattern::Symbol)
}

fn pair_of(rows: usize, left: u16, right: u16) -> Option<Pair> {
    Some((below(rows, left)?, below(rows, right)?))
}

fn below(bound: usize, number: u16) -> Option<usize> {
    Some(usize::from(number)).filter(|number| *number < bound)
}
