//! Contexts: rows, equations and differences in several shapes.

use crate::random::Random;
use reference::closing::close;
use reference::text::{Row, Text};

/// Symbols with their counts. A context and its clause draw from one list, so that counts agree.
pub const SYMBOLS: [(u16, usize); 12] = [
    (0x0020, 1),
    (0x0021, 1),
    (0x1F00, 1),
    (0x0030, 2),
    (0xABCD, 2),
    (0x0031, 2),
    (0x0032, 3),
    (0x0033, 4),
    (0x0040, 1),
    (0xFFFF, 3),
    (0x0200, 4),
    (0x0001, 2),
];
const FIRST_CONSTANT: u16 = 0x0100;
const SHAPES: [fn(&mut Random, usize) -> Text; 6] = [mixed, mixed, merged, chain, cascade, ledger];

/// A context of at most `most` rows. Differences hold, so that it seldom contradicts itself.
pub fn context(random: &mut Random, most: usize) -> Text {
    let mut text = random.pick(&SHAPES)(random, most.max(1));
    if random.one_in(2) {
        repeat_rows(random, &mut text, most);
    }
    add_differences(random, &mut text);
    text
}

pub fn constant(number: usize) -> Row {
    Row { symbol: FIRST_CONSTANT + number as u16, arguments: Vec::new() }
}

pub fn symbol_over(random: &mut Random, (symbol, count): (u16, usize), rows: usize) -> Row {
    Row { symbol, arguments: (0..count).map(|_| random.below(rows)).collect() }
}

/// Some constants, then symbols over earlier rows, then some equations.
fn mixed(random: &mut Random, most: usize) -> Text {
    let mut text = Text::default();
    let rows = random.within(1, most);
    let constants = random.within(1, rows);
    let symbols = random.within(1, SYMBOLS.len());
    text.rows.extend((0..constants).map(constant));
    for earlier in constants..rows {
        let symbol = SYMBOLS[random.below(symbols)];
        text.rows.push(symbol_over(random, symbol, earlier));
    }
    let equations = random.below(rows);
    add_equations(random, &mut text, equations);
    text
}

/// As `mixed`, with few symbols and many equations.
fn merged(random: &mut Random, most: usize) -> Text {
    let mut text = Text::default();
    let rows = random.within(1, most);
    let constants = random.within(1, rows.min(4));
    text.rows.extend((0..constants).map(constant));
    for earlier in constants..rows {
        let symbol = SYMBOLS[random.below(3)];
        text.rows.push(symbol_over(random, symbol, earlier));
    }
    add_equations(random, &mut text, rows);
    text
}

/// One symbol applied again and again, and equations that fold the chain.
fn chain(random: &mut Random, most: usize) -> Text {
    let mut text = Text::default();
    let symbol = SYMBOLS[0].0;
    text.rows.push(constant(0));
    for earlier in 0..random.below(most) {
        text.rows.push(Row { symbol, arguments: vec![earlier] });
    }
    let equations = random.within(0, 2);
    add_equations(random, &mut text, equations);
    text
}

/// Two families of constants whose symbols wake one another: each congruence gives the next.
fn cascade(random: &mut Random, most: usize) -> Text {
    let mut text = Text::default();
    let steps = (most / 4).max(1);
    let symbol = SYMBOLS[1].0;
    text.rows.extend((0..2 * steps).map(constant));
    for step in (0..steps).rev().filter(|_| most >= 4) {
        text.rows.push(Row { symbol, arguments: vec![step] });
        text.rows.push(Row { symbol, arguments: vec![steps + step] });
        let over = text.rows.len();
        if step + 1 < steps {
            text.equations.push((over - 2, step + 1));
            text.equations.push((steps + step + 1, over - 1));
        }
    }
    if !random.one_in(4) {
        text.equations.push((steps, 0));
    }
    text
}

/// Lines with a payee and a currency each.
fn ledger(random: &mut Random, most: usize) -> Text {
    let mut text = Text::default();
    let lines = (most / 4).max(1);
    let others = most.saturating_sub(3 * lines).max(1);
    text.rows.extend((0..others).map(constant));
    for line in 0..lines.min(most / 4) {
        let row = text.rows.len();
        text.rows.push(constant(others + line));
        for symbol in [SYMBOLS[0].0, SYMBOLS[1].0] {
            text.rows.push(Row { symbol, arguments: vec![row] });
            let other = random.below(others);
            text.equations.push((text.rows.len() - 1, other));
        }
    }
    text
}

fn add_equations(random: &mut Random, text: &mut Text, equations: usize) {
    for _ in 0..equations {
        let pair = (random.below(text.rows.len()), random.below(text.rows.len()));
        text.equations.push(pair);
    }
}

/// Later rows that are earlier ones again, some with another argument.
fn repeat_rows(random: &mut Random, text: &mut Text, most: usize) {
    for _ in 0..random.within(1, 4) {
        if text.rows.len() < most {
            let mut row = random.pick(&text.rows).clone();
            let earlier = text.rows.len();
            if !row.arguments.is_empty() && random.one_in(2) {
                let last = row.arguments.len() - 1;
                let place = if random.one_in(2) { last } else { random.within(0, last) };
                row.arguments[place] = random.below(earlier);
            }
            text.rows.push(row);
        }
    }
}

/// Differences between rows of two classes, some of them more than once and in both orientations.
fn add_differences(random: &mut Random, text: &mut Text) {
    let class = close(&text.rows, &text.equations);
    for _ in 0..random.below(6) {
        let pair = (random.below(class.len()), random.below(class.len()));
        if class[pair.0] != class[pair.1] {
            text.differences.push(pair);
            if random.one_in(6) {
                text.differences.push((pair.1, pair.0));
            }
        }
    }
}
