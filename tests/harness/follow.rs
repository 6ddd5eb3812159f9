//! Differences that follow: rows over two others that are stated different, so that the equation of the two would make them equal.

use crate::context::{constant, context, SYMBOLS};
use crate::random::Random;
use reference::breach::{assignments, Terms};
use reference::closing::{alike, close, differ, first_clash, merge};
use reference::text::{Literal, Pair, Pattern, Row, Text, MOST_DIFFERENCES, MOST_EQUATIONS};

/// Constants from here on are in no other context.
const NEW_CONSTANTS: usize = 0x200;
/// Assignments that are looked through for literals that clash only together.
const ASSIGNMENTS: usize = 3_000;

/// A context in which some rows differ by what lies over them, and one such pair.
pub fn context_that_follows(random: &mut Random, most: usize, levels: usize) -> (Text, Pair) {
    let mut text = context(random, (most / 2).max(2));
    while text.rows.len() < 2 {
        text.rows.push(constant(text.rows.len()));
    }
    let pair = two_rows(random, &mut text);
    let mut over = pair;
    for _ in 0..levels {
        over = rows_over(random, &mut text, over, pair);
    }
    part(random, &mut text, over);
    (text, pair)
}

/// Two rows of different classes; a new constant where there is but one class.
fn two_rows(random: &mut Random, text: &mut Text) -> Pair {
    let class = close(&text.rows, &text.equations);
    let left = random.below(class.len());
    let others: Vec<usize> = (0..class.len()).filter(|row| class[*row] != class[left]).collect();
    if others.is_empty() {
        text.rows.push(constant(NEW_CONSTANTS));
        return (left, class.len());
    }
    (left, *random.pick(&others))
}

/// One symbol over both rows of a pair, and over other arguments that would be equal too.
fn rows_over(random: &mut Random, text: &mut Text, over: Pair, pair: Pair) -> Pair {
    let (symbol, count) = *random.pick(&SYMBOLS);
    let place = random.below(count);
    let mut sides = (Vec::new(), Vec::new());
    for argument in 0..count {
        let (left, right) = if argument == place { over } else { equal_pair(random, text, pair) };
        sides.0.push(left);
        sides.1.push(right);
    }
    let left = new_row(random, text, Row { symbol, arguments: sides.0 });
    let right = new_row(random, text, Row { symbol, arguments: sides.1 });
    turned_at_times(random, (left, right))
}

/// Two rows that are equal, or that the pair's equation makes equal.
fn equal_pair(random: &mut Random, text: &Text, (left, right): Pair) -> Pair {
    let row = random.below(text.rows.len());
    match random.below(5) {
        0 => (left, right),
        1 => (right, left),
        2 if !text.equations.is_empty() => *random.pick(&text.equations),
        _ => (row, row),
    }
}

/// A new row; at times a constant that is stated to be equal to it, and stands for it further up.
fn new_row(random: &mut Random, text: &mut Text, row: Row) -> usize {
    let new = text.rows.len();
    text.rows.push(row);
    if !random.one_in(3) {
        return new;
    }
    text.rows.push(constant(NEW_CONSTANTS + new));
    let equation = turned_at_times(random, (new, new + 1));
    text.equations.push(equation);
    new + 1
}

fn turned_at_times(random: &mut Random, (left, right): Pair) -> Pair {
    if random.one_in(2) {
        (right, left)
    } else {
        (left, right)
    }
}

/// States a difference, unless its sides are equal.
fn part(random: &mut Random, text: &mut Text, pair: Pair) {
    let class = close(&text.rows, &text.equations);
    if class[pair.0] != class[pair.1] {
        let place = random.within(0, text.differences.len());
        let pair = turned_at_times(random, pair);
        text.differences.insert(place, pair);
    }
}

/// A difference that two equations make equal together, and neither alone; and two unequal literals, one for each of them.
pub fn together(random: &mut Random) -> Text {
    let mut text = Text::default();
    text.rows.extend((0..random.within(4, 7)).map(constant));
    let mut over = [(0, 1), (2, 3)].map(|pair| turned_at_times(random, pair));
    let (symbol, count) = *random.pick(&[SYMBOLS[3], SYMBOLS[4], SYMBOLS[6], SYMBOLS[7]]);
    for pair in &mut over {
        if random.one_in(3) {
            *pair = rows_over(random, &mut text, *pair, *pair);
        }
    }
    let first = random.below(count - 1);
    let arguments = |side: fn(Pair) -> usize| (0..count).map(|place| side(over[usize::from(place > first)])).collect();
    let left = new_row(random, &mut text, Row { symbol, arguments: arguments(|pair| pair.0) });
    let right = new_row(random, &mut text, Row { symbol, arguments: arguments(|pair| pair.1) });
    part(random, &mut text, (left, right));
    add_literals_of_both(random, &mut text);
    text
}

/// Constants 0 and 1 are unequal, and so are 2 and 3; in the place of 0, or of 0 and 2, there may be a variable.
fn add_literals_of_both(random: &mut Random, text: &mut Text) {
    let variables = random.below(3);
    for row in [0, 2, 1, 3] {
        let variable = row / 2;
        text.patterns.push(if row % 2 == 0 && variable < variables {
            Pattern::Variable(variable)
        } else {
            Pattern::Symbol(constant(row))
        });
    }
    let mut literal = |equal: bool, sides: Pair| Literal { equal, sides: turned_at_times(random, sides) };
    text.literals = vec![literal(false, (0, 2)), literal(false, (1, 3)), literal(true, (0, 0))];
}

/// Unequal literals between a term and terms over it, most of which lie outside the table.
pub fn outside(random: &mut Random, text: &mut Text) {
    let (symbol, count) = *random.pick(&SYMBOLS);
    let over = |rows: [usize; 4]| Pattern::Symbol(Row { symbol, arguments: rows[..count].to_vec() });
    text.patterns = vec![Pattern::Variable(0), over([0; 4]), over([1; 4]), over([0, 1, 1, 1])];
    text.patterns.extend([Pattern::Variable(random.below(2)), over([4; 4]), Pattern::Symbol(constant(random.below(4)))]);
    for _ in 0..random.within(1, 2) {
        let sides = *random.pick(&[(0, 1), (1, 2), (0, 2), (1, 3), (1, 5), (2, 5), (1, 6), (4, 1)]);
        let sides = turned_at_times(random, sides);
        text.literals.push(Literal { equal: false, sides });
    }
    if random.one_in(3) {
        text.literals.push(Literal { equal: true, sides: (0, 4) });
    }
}

/// Whether an instance of some unequal literal lies outside the table under some assignment.
pub fn has_outside(text: &Text) -> bool {
    let mut terms = Terms::of(text);
    let mut unequal = text.literals.iter().filter(|literal| !literal.equal);
    unequal.any(|literal| assignments(text).any(|assignment| terms.sides(text, literal, &assignment).is_none()))
}

/// Fills the equations, the differences or both up to their limit, with such as change nothing.
pub fn fill_statements(random: &mut Random, text: &mut Text) {
    let which = random.below(3);
    while which < 2 && text.equations.len() < MOST_EQUATIONS {
        let row = random.below(text.rows.len());
        let again = if text.equations.is_empty() || random.one_in(2) { (row, row) } else { *random.pick(&text.equations) };
        text.equations.push(turned_at_times(random, again));
    }
    while which > 0 && !text.differences.is_empty() && text.differences.len() < MOST_DIFFERENCES {
        let again = *random.pick(&text.differences);
        text.differences.push(turned_at_times(random, again));
    }
}

/// How the unequal literals of a breach hold.
#[derive(Default)]
pub struct Follows {
    /// The most levels of congruence that one of them needs: 0 where a stated difference keeps the instances apart.
    pub levels: usize,
    /// Whether one of them needs a stated equation besides.
    pub by_equations: bool,
}

pub fn follows(text: &Text, breach: &[usize]) -> Follows {
    let mut terms = Terms::of(text);
    let mut found = Follows::default();
    for literal in text.literals.iter().filter(|literal| !literal.equal) {
        let Some((left, right)) = terms.sides(text, literal, breach) else { continue };
        if !terms.kept_apart(text, left, right) {
            found.levels = found.levels.max(levels(text, left, right));
            found.by_equations |= !differ(&text.rows, &[], &text.differences, left, right);
        }
    }
    found
}

/// Rounds of congruence, each over the classes of the one before, until the sides of a difference are equal.
fn levels(text: &Text, left: usize, right: usize) -> usize {
    let mut class = close(&text.rows, &text.equations);
    merge(&mut class, left, right);
    let mut rounds = 0;
    while first_clash(&class, &text.differences).is_none() {
        let before = class.clone();
        for right in 0..class.len() {
            for left in 0..right {
                if alike(&before, &text.rows[left], &text.rows[right]) {
                    merge(&mut class, left, right);
                }
            }
        }
        rounds += 1;
    }
    rounds
}

/// Whether two unequal literals, neither of which holds under some assignment, would clash if both their equations were added.
pub fn clash_together(text: &Text) -> bool {
    let unequal: Vec<usize> = (0..text.literals.len()).filter(|index| !text.literals[*index].equal).collect();
    if unequal.len() < 2 || text.rows.len() > 40 {
        return false;
    }
    let mut terms = Terms::of(text);
    let clash = |assignment: Vec<usize>| {
        let held = terms.holding(text, &assignment);
        let failing = unequal.iter().filter(|index| !held[**index]);
        let sides: Vec<Pair> = failing.filter_map(|index| terms.sides(text, &text.literals[*index], &assignment)).collect();
        let equations = [&text.equations[..], &sides[..]].concat();
        sides.len() > 1 && first_clash(&close(&text.rows, &equations), &text.differences).is_some()
    };
    assignments(text).take(ASSIGNMENTS).any(clash)
}
