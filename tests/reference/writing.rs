//! A writer of grounds, as docs/GROUNDS.md lets anybody write them: a naive closing that remembers why two terms were joined, and
//! the way from one term to another over what was joined. For an unequal literal its own equation is added, the closing goes on,
//! and afterwards all that is forgotten. Which steps are written is free. Where there are several ways, `choose` is asked with their
//! number; 0 each time gives the plain grounds, in which every step is cited.

use std::collections::HashMap;

use crate::closing::{alike, close};
use crate::grounds::{Conclusion, Name, Step};
use crate::normal::line;
use crate::text::{Literal, Pattern, Row, Text};
use crate::{find, find_prints, rule, Found, INPUT_LIMIT};

/// Below a number that is not 0.
pub type Choose<'a> = &'a mut dyn FnMut(usize) -> usize;

#[derive(Clone, Copy)]
enum Reason {
    Same,
    Stated(usize),
    Congruent,
    Added,
}

/// Two terms that were in two classes when they were joined, and for whom.
#[derive(Clone, Copy)]
struct Join {
    left: usize,
    right: usize,
    reason: Reason,
    owner: u8,
}

/// The terms are the context rows, then the instances of the pattern rows; a variable's instance is its row again.
struct Writer<'a> {
    choose: Choose<'a>,
    rows: usize,
    terms: Vec<Row>,
    /// For whom terms are joined: 0, or the number of an unequal literal.
    owner: u8,
    class: Vec<usize>,
    /// The joins at each term.
    joins: Vec<Vec<Join>>,
    steps: Vec<Step>,
    /// The steps of each owner.
    written: HashMap<(u8, usize, usize), usize>,
}

/// Steps, and a conclusion for each literal that holds under the assignment.
pub fn grounds(text: &Text, assignment: &[usize], choose: Choose) -> (Vec<Step>, Vec<Conclusion>) {
    let mut writer = Writer::new(text, assignment, choose);
    writer.join_all(text);
    let literals = text.literals.iter().enumerate();
    let conclusions = literals.filter_map(|(index, literal)| writer.conclusion(text, index + 1, literal)).collect();
    (writer.steps, conclusions)
}

impl<'a> Writer<'a> {
    fn new(text: &Text, assignment: &[usize], choose: Choose<'a>) -> Writer<'a> {
        let rows = text.rows.len();
        let instance = |pattern: &Pattern| match pattern {
            Pattern::Variable(number) => text.rows[assignment[*number]].clone(),
            Pattern::Symbol(row) => {
                Row { symbol: row.symbol, arguments: row.arguments.iter().map(|argument| rows + argument).collect() }
            }
        };
        let terms: Vec<Row> = text.rows.iter().cloned().chain(text.patterns.iter().map(instance)).collect();
        let class = (0..terms.len()).collect();
        let joins = vec![Vec::new(); terms.len()];
        Writer { choose, rows, terms, owner: 0, class, joins, steps: Vec::new(), written: HashMap::new() }
    }

    /// Once in so many, and never in plain grounds.
    fn at_times(&mut self, often: usize) -> bool {
        (self.choose)(often) == 1
    }

    /// Whether two classes became one.
    fn join(&mut self, left: usize, right: usize, reason: Reason) -> bool {
        let (kept, gone) = (self.class[left], self.class[right]);
        if kept == gone {
            return false;
        }
        self.class.iter_mut().filter(|class| **class == gone).for_each(|class| *class = kept);
        let join = Join { left, right, reason, owner: self.owner };
        self.joins[left].push(join);
        self.joins[right].push(join);
        true
    }

    /// Terms that are the same are at times left to congruence.
    fn join_all(&mut self, text: &Text) {
        for (term, first) in close(&self.terms, &[]).into_iter().enumerate() {
            if !self.at_times(4) {
                self.join(term, first, Reason::Same);
            }
        }
        for (index, (left, right)) in text.equations.iter().enumerate() {
            self.join(*left, *right, Reason::Stated(index + 1));
        }
        while self.join_alike() {}
    }

    fn join_alike(&mut self) -> bool {
        let mut joined = false;
        for right in 0..self.terms.len() {
            for left in 0..right {
                if alike(&self.class, &self.terms[left], &self.terms[right]) {
                    joined |= self.join(left, right, Reason::Congruent);
                }
            }
        }
        joined
    }

    /// The joins that lead from one term to another of its class, each with the term that it leads to.
    fn way(&self, from: usize, to: usize) -> Vec<(Join, usize)> {
        let mut came: HashMap<usize, Join> = HashMap::new();
        let mut reached = vec![to];
        while let Some(term) = reached.pop() {
            for join in &self.joins[term] {
                let next = join.left + join.right - term;
                if next != to && !came.contains_key(&next) {
                    came.insert(next, *join);
                    reached.push(next);
                }
            }
        }
        let mut way = Vec::new();
        let mut term = from;
        while term != to {
            let join = came[&term];
            term = join.left + join.right - term;
            way.push((join, term));
        }
        way
    }

    fn name(&self, term: usize) -> Name {
        if term < self.rows {
            Name { mark: 0, row: term }
        } else {
            Name { mark: 1, row: term - self.rows }
        }
    }

    fn write(&mut self, owner: u8, kind: u8, (left, right): (usize, usize), cited: &[usize]) -> usize {
        let mut numbers = [0; 4];
        numbers[..cited.len()].copy_from_slice(cited);
        self.steps.push(Step { owner, kind, left: self.name(left), right: self.name(right), numbers });
        self.steps.len()
    }

    /// The number of a step from one term to another of its class, for an owner to cite: a shared one, unless what it needs was joined
    /// for the owner; at times one of the owner's all the same.
    fn step(&mut self, owner: u8, left: usize, right: usize) -> usize {
        let way = self.way(left, right);
        let owned = owner != 0 && (way.iter().any(|(join, _)| join.owner != 0) || self.at_times(6));
        let owner = if owned { owner } else { 0 };
        let written = self.written.get(&(owner, left, right)).copied();
        if let Some(number) = written.filter(|_| !self.at_times(8)) {
            return number;
        }
        let mut number = self.new_step(owner, left, right, &way);
        if self.at_times(12) {
            let still = self.write(owner, 2, (right, right), &[]);
            number = self.write(owner, 4, (left, right), &[number, still]);
        }
        self.written.insert((owner, left, right), number);
        number
    }

    fn new_step(&mut self, owner: u8, left: usize, right: usize, way: &[(Join, usize)]) -> usize {
        match way {
            [] => self.write(owner, 2, (left, right), &[]),
            [(join, _)] if self.at_times(3) => {
                let turned = self.over(owner, *join, right, left);
                self.write(owner, 3, (left, right), &[turned])
            }
            [(join, _)] => self.over(owner, *join, left, right),
            _ => {
                let (_, middle) = way[(self.choose)(way.len() - 1)];
                let cited = [self.step(owner, left, middle), self.step(owner, middle, right)];
                self.write(owner, 4, (left, right), &cited)
            }
        }
    }

    /// A step over one join, in either direction.
    fn over(&mut self, owner: u8, join: Join, left: usize, right: usize) -> usize {
        let forward = left == join.left;
        match join.reason {
            Reason::Same => self.write(owner, 2, (left, right), &[]),
            Reason::Stated(number) if forward => self.write(owner, 1, (left, right), &[number]),
            Reason::Added if forward => self.write(owner, 6, (left, right), &[]),
            Reason::Stated(_) | Reason::Added => {
                let turned = self.over(owner, join, right, left);
                self.write(owner, 3, (left, right), &[turned])
            }
            Reason::Congruent => {
                let pairs = self.terms[left].arguments.clone().into_iter().zip(self.terms[right].arguments.clone());
                let cited: Vec<usize> = pairs.map(|(a, b)| self.step(owner, a, b)).collect();
                self.write(owner, 5, (left, right), &cited)
            }
        }
    }

    fn conclusion(&mut self, text: &Text, number: usize, literal: &Literal) -> Option<Conclusion> {
        let (left, right) = (self.rows + literal.sides.0, self.rows + literal.sides.1);
        if literal.equal {
            let holds = self.class[left] == self.class[right];
            return holds.then(|| Conclusion { literal: number, first: self.step(0, left, right), ..Conclusion::default() });
        }
        let (class, joins) = (self.class.clone(), self.joins.clone());
        self.owner = number as u8;
        self.join(left, right, Reason::Added);
        while self.join_alike() {}
        let conclusion = self.clash(text, number);
        (self.owner, self.class, self.joins) = (0, class, joins);
        conclusion
    }

    /// A stated difference with equal sides.
    fn clash(&mut self, text: &Text, number: usize) -> Option<Conclusion> {
        let clashing = |(_, (p, q)): &(usize, &(usize, usize))| self.class[*p] == self.class[*q];
        let clashes: Vec<(usize, &(usize, usize))> = text.differences.iter().enumerate().filter(clashing).collect();
        if clashes.is_empty() {
            return None;
        }
        let (index, (p, q)) = clashes[(self.choose)(clashes.len())];
        let first = self.step(self.owner, *p, *q);
        Some(Conclusion { literal: number, first, difference: index + 1, ..Conclusion::default() })
    }
}

pub fn step_line(step: &Step) -> Vec<u8> {
    let numbers = step.numbers.map(|number| (number as u32).to_be_bytes()).concat();
    line(&[&[0xB0, step.owner, step.kind], &name_bytes(step.left)[..], &name_bytes(step.right)[..], &numbers[..]].concat())
}

fn name_bytes(name: Name) -> [u8; 3] {
    [name.mark, (name.row / 256) as u8, (name.row % 256) as u8]
}

pub fn conclusion_line(conclusion: &Conclusion) -> Vec<u8> {
    let steps = [conclusion.first, conclusion.second].map(|number| (number as u32).to_be_bytes()).concat();
    let difference = (conclusion.difference as u16).to_be_bytes();
    line(&[&[0xB1, conclusion.literal as u8], &steps[..], &difference[..], &[conclusion.orientation]].concat())
}

/// What the program prints, if it writes plain grounds.
pub fn grounds_prints(input: &[u8]) -> Vec<u8> {
    let mut printed = find_prints(input);
    if input.len() > INPUT_LIMIT {
        return printed;
    }
    if let (Ok(text), Found::Breach(rows)) = (rule(input), find(input)) {
        let (steps, conclusions) = grounds(&text, &rows, &mut |_| 0);
        printed.extend(steps.iter().flat_map(step_line));
        printed.extend(conclusions.iter().flat_map(conclusion_line));
    }
    printed
}
