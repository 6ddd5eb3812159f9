//! Breaches: every assignment in order, every literal under each.

use std::collections::HashMap;

use crate::closing::{alike, apart, close, differ};
use crate::text::{Literal, Pattern, Row, Text};

/// The highest variable number plus 1, or 0.
pub fn variables(patterns: &[Pattern]) -> usize {
    let numbers = patterns.iter().map(|pattern| match pattern {
        Pattern::Variable(number) => number + 1,
        Pattern::Symbol(_) => 0,
    });
    numbers.max().unwrap_or(0)
}

/// Assignments in order: variable 0's row first, then variable 1's, and so on.
pub struct Assignments {
    rows: usize,
    next: Option<Vec<usize>>,
}

pub fn assignments(text: &Text) -> Assignments {
    let variables = variables(&text.patterns);
    let none = variables > 0 && text.rows.is_empty();
    Assignments { rows: text.rows.len(), next: if none { None } else { Some(vec![0; variables]) } }
}

impl Iterator for Assignments {
    type Item = Vec<usize>;

    fn next(&mut self) -> Option<Vec<usize>> {
        let now = self.next.take()?;
        self.next = following(&now, self.rows);
        Some(now)
    }
}

fn following(now: &[usize], rows: usize) -> Option<Vec<usize>> {
    let mut after = now.to_vec();
    for variable in (0..after.len()).rev() {
        after[variable] += 1;
        if after[variable] < rows {
            return Some(after);
        }
        after[variable] = 0;
    }
    None
}

/// Terms with their classes, closed: the rows of a context, and instances added to them.
pub struct Terms {
    terms: Vec<Row>,
    class: Vec<usize>,
    rows: usize,
    /// Pairs of classes of rows, the lower first, and whether they differ.
    asked: HashMap<(usize, usize), bool>,
}

impl Terms {
    pub fn of(text: &Text) -> Terms {
        let class = close(&text.rows, &text.equations);
        Terms { terms: text.rows.clone(), class, rows: text.rows.len(), asked: HashMap::new() }
    }

    /// A term that is alike to none of the others is in a class of its own, and adding it joins no others.
    fn add(&mut self, term: Row) -> usize {
        let new = self.terms.len();
        let mate = (0..new).find(|other| alike(&self.class, &self.terms[*other], &term));
        self.class.push(mate.map_or(new, |other| self.class[other]));
        self.terms.push(term);
        new
    }

    /// The instance of each pattern row, after those of the last assignment were taken away.
    fn instances(&mut self, patterns: &[Pattern], assignment: &[usize]) -> Vec<usize> {
        self.terms.truncate(self.rows);
        self.class.truncate(self.rows);
        let mut instances: Vec<usize> = Vec::new();
        for pattern in patterns {
            let instance = match pattern {
                Pattern::Variable(number) => assignment[*number],
                Pattern::Symbol(row) => self.add(over(row, &instances)),
            };
            instances.push(instance);
        }
        instances
    }

    /// Which literals hold.
    pub fn holding(&mut self, text: &Text, assignment: &[usize]) -> Vec<bool> {
        let instances = self.instances(&text.patterns, assignment);
        text.literals.iter().map(|literal| self.holds(text, literal, &instances)).collect()
    }

    fn holds(&mut self, text: &Text, literal: &Literal, instances: &[usize]) -> bool {
        let (left, right) = (self.class[instances[literal.sides.0]], self.class[instances[literal.sides.1]]);
        if literal.equal {
            left == right
        } else {
            self.classes_differ(text, left, right)
        }
    }

    /// Asked once for each pair. An instance outside every row's class differs from nothing: its equation makes no two rows equal.
    fn classes_differ(&mut self, text: &Text, left: usize, right: usize) -> bool {
        let (low, high) = (left.min(right), left.max(right));
        if high >= self.rows {
            return false;
        }
        let pair = (low, high);
        *self.asked.entry(pair).or_insert_with(|| differ(&text.rows, &text.equations, &text.differences, low, high))
    }

    /// The rows of the two instances of a literal, where both are in a row's class.
    pub fn sides(&mut self, text: &Text, literal: &Literal, assignment: &[usize]) -> Option<(usize, usize)> {
        let instances = self.instances(&text.patterns, assignment);
        let (left, right) = (self.class[instances[literal.sides.0]], self.class[instances[literal.sides.1]]);
        (left.max(right) < self.rows).then_some((left, right))
    }

    /// Whether a stated difference keeps two rows apart.
    pub fn kept_apart(&self, text: &Text, left: usize, right: usize) -> bool {
        apart(&self.class, &text.differences, left, right)
    }
}

/// A pattern row's symbol over the instances of its arguments.
fn over(pattern: &Row, instances: &[usize]) -> Row {
    let arguments = pattern.arguments.iter().map(|row| instances[*row]).collect();
    Row { symbol: pattern.symbol, arguments }
}

/// The first assignment under which every literal holds.
pub fn first_breach(text: &Text) -> Option<Vec<usize>> {
    let mut terms = Terms::of(text);
    assignments(text).find(|assignment| terms.holding(text, assignment).into_iter().all(|held| held))
}

/// Whether every literal holds under the assignment.
pub fn is_breach(text: &Text, assignment: &[usize]) -> bool {
    Terms::of(text).holding(text, assignment).into_iter().all(|held| held)
}

/// Every breach whose rows are all representatives, in order.
pub fn breaches(text: &Text) -> impl Iterator<Item = Vec<usize>> + '_ {
    let lowest = close(&text.rows, &text.equations);
    let mut terms = Terms::of(text);
    let representatives = assignments(text).filter(move |rows| rows.iter().all(|row| lowest.get(*row) == Some(row)));
    representatives.filter(move |rows| terms.holding(text, rows).into_iter().all(|held| held))
}

/// The same, with the rows and the instances closed together from nothing under each assignment. Slow; it tries `Terms`.
pub fn first_breach_anew(text: &Text) -> Option<Vec<usize>> {
    assignments(text).find(|assignment| breach_anew(text, assignment))
}

fn breach_anew(text: &Text, assignment: &[usize]) -> bool {
    let mut terms = text.rows.clone();
    let mut instances: Vec<usize> = Vec::new();
    for pattern in &text.patterns {
        match pattern {
            Pattern::Variable(number) => instances.push(assignment[*number]),
            Pattern::Symbol(row) => {
                terms.push(over(row, &instances));
                instances.push(terms.len() - 1);
            }
        }
    }
    let class = close(&terms, &text.equations);
    text.literals.iter().all(|literal| {
        let (left, right) = (instances[literal.sides.0], instances[literal.sides.1]);
        if literal.equal {
            class[left] == class[right]
        } else {
            differ(&terms, &text.equations, &text.differences, left, right)
        }
    })
}
