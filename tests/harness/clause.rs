//! Clauses: pattern rows, and literals chosen by what holds of them under some assignment.

use crate::context::{constant, symbol_over, SYMBOLS};
use crate::random::Random;
use reference::breach::{variables, Terms};
use reference::text::{symbol_row, Literal, Pattern, Row, Text};

/// Pattern rows over variables below `variables`, some numbers skipped, some rows repeated.
pub fn add_patterns(random: &mut Random, text: &mut Text, variables: usize, most: usize) {
    for number in 0..variables {
        if number + 1 == variables || !random.one_in(6) {
            text.patterns.push(Pattern::Variable(number));
        }
    }
    for _ in 0..random.within(1, most) {
        let pattern = new_pattern(random, text, variables);
        text.patterns.push(pattern);
    }
    if random.one_in(4) {
        start_anywhere(random, &mut text.patterns);
    }
}

fn new_pattern(random: &mut Random, text: &Text, variables: usize) -> Pattern {
    let earlier = text.patterns.len();
    match random.below(8) {
        0 if variables > 0 => Pattern::Variable(random.below(variables)),
        0 | 1 => Pattern::Symbol(constant(random.below(8))),
        2 if earlier > 0 => random.pick(&text.patterns).clone(),
        _ if earlier == 0 => Pattern::Symbol(constant(random.below(4))),
        3 => outside(random, earlier),
        _ => inside(random, text, earlier),
    }
}

/// A symbol that the context may well not have.
fn outside(random: &mut Random, earlier: usize) -> Pattern {
    let symbol = *random.pick(&SYMBOLS);
    Pattern::Symbol(symbol_over(random, symbol, earlier))
}

/// The symbol of some row of the context.
fn inside(random: &mut Random, text: &Text, earlier: usize) -> Pattern {
    let over: Vec<&Row> = text.rows.iter().filter(|row| !row.arguments.is_empty()).collect();
    if over.is_empty() {
        return outside(random, earlier);
    }
    let row = random.pick(&over);
    Pattern::Symbol(symbol_over(random, (row.symbol, row.arguments.len()), earlier))
}

/// Moves the variables behind constants, so that a pattern row's number says nothing of its kind.
fn start_anywhere(random: &mut Random, patterns: &mut Vec<Pattern>) {
    let shift = random.within(1, 3);
    for pattern in patterns.iter_mut() {
        if let Pattern::Symbol(row) = pattern {
            row.arguments.iter_mut().for_each(|argument| *argument += shift);
        }
    }
    for number in 0..shift {
        patterns.insert(0, Pattern::Symbol(constant(number)));
    }
}

/// Every literal over the pattern rows that holds under the assignment, and every one that does not.
fn sorted_literals(text: &Text, assignment: &[usize]) -> (Vec<Literal>, Vec<Literal>) {
    let mut all = text.clone();
    let rows = text.patterns.len();
    let pairs = (0..rows).flat_map(|left| (0..rows).map(move |right| (left, right)));
    all.literals = pairs.flat_map(|sides| [true, false].map(|equal| Literal { equal, sides })).collect();
    let held = Terms::of(&all).holding(&all, assignment);
    let (good, bad): (Vec<_>, Vec<_>) = all.literals.into_iter().zip(held).partition(|(_, held)| *held);
    let literals = |pairs: Vec<(Literal, bool)>| pairs.into_iter().map(|(literal, _)| literal).collect();
    (literals(good), literals(bad))
}

/// Rows for the variables, half the time late ones.
fn some_rows(random: &mut Random, rows: usize, variables: usize) -> Vec<usize> {
    let first = if random.one_in(2) { rows - (rows + 2) / 3 } else { 0 };
    (0..variables).map(|_| random.within(first, rows - 1)).collect()
}

/// Rows of an assignment that is tried no later.
fn some_earlier_rows(random: &mut Random, assignment: &[usize]) -> Vec<usize> {
    assignment.iter().map(|row| random.within(0, *row)).collect()
}

/// Literals that hold together under one assignment, each chosen to shut out some earlier one, and `failing` ones that do not.
pub fn add_literals(random: &mut Random, text: &mut Text, failing: usize) {
    let variables = variables(&text.patterns);
    if variables > 0 && text.rows.is_empty() {
        return add_any_literals(random, text);
    }
    let assignment = some_rows(random, text.rows.len().max(1), variables);
    add_literals_under(random, text, &assignment, failing);
}

/// Literals that hold under an assignment of which some variables have the rows of a pair; one of them at least differs by what follows.
pub fn add_following_literals(random: &mut Random, text: &mut Text, pair: (usize, usize)) {
    let mut assignment = some_rows(random, text.rows.len(), variables(&text.patterns));
    let sides = if random.one_in(2) { [pair.0, pair.1] } else { [pair.1, pair.0] };
    for (row, side) in assignment.iter_mut().zip(sides) {
        *row = side;
    }
    let (good, _) = sorted_literals(text, &assignment);
    let mut terms = Terms::of(text);
    let mut by_more = |literal: &&Literal| {
        let sides = terms.sides(text, literal, &assignment);
        !literal.equal && sides.map_or(false, |(left, right)| !terms.kept_apart(text, left, right))
    };
    let following: Vec<Literal> = good.iter().filter(|literal| by_more(literal)).cloned().collect();
    if !following.is_empty() {
        text.literals.push(random.pick(&following).clone());
    }
    if !random.one_in(3) {
        add_literals_under(random, text, &assignment, 0);
    }
}

fn add_literals_under(random: &mut Random, text: &mut Text, assignment: &[usize], failing: usize) {
    let (good, bad) = sorted_literals(text, assignment);
    for _ in 0..random.within(1, 5) {
        let earlier = some_earlier_rows(random, assignment);
        let (_, excluding) = sorted_literals(text, &earlier);
        let both: Vec<Literal> = good.iter().filter(|literal| excluding.contains(literal)).cloned().collect();
        let choice = if both.is_empty() { &good } else { &both };
        if let Some(literal) = telling(random, text, choice) {
            text.literals.push(literal);
        }
    }
    for _ in 0..failing {
        if let Some(literal) = telling(random, text, &bad) {
            let place = random.within(0, text.literals.len());
            text.literals.insert(place, literal);
        }
    }
}

/// One of the literals, if possible one between two different pattern rows of which one has arguments or is unequal.
fn telling(random: &mut Random, text: &Text, literals: &[Literal]) -> Option<Literal> {
    if literals.is_empty() {
        return None;
    }
    for _ in 0..12 {
        let literal = random.pick(literals);
        if literal.sides.0 != literal.sides.1 && (!literal.equal || has_arguments(text, literal) || random.one_in(5)) {
            return Some(literal.clone());
        }
    }
    Some(random.pick(literals).clone())
}

fn has_arguments(text: &Text, literal: &Literal) -> bool {
    let sides = [literal.sides.0, literal.sides.1];
    sides.iter().any(|side| symbol_row(&text.patterns[*side]).map_or(false, |row| !row.arguments.is_empty()))
}

/// Literals between any two pattern rows.
pub fn add_any_literals(random: &mut Random, text: &mut Text) {
    let rows = text.patterns.len();
    for _ in 0..random.within(0, 4) {
        if rows > 0 {
            let sides = (random.below(rows), random.below(rows));
            text.literals.push(Literal { equal: !random.one_in(3), sides });
        }
    }
}
