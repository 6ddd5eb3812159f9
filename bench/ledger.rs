//! A context and a rule that are being written, as a text.

use std::collections::HashMap;

/// Random numbers for workloads: a linear congruential generator, the same on every machine.
pub struct Random(pub u64);

impl Random {
    pub fn below(&mut self, bound: usize) -> usize {
        self.0 = self.0.wrapping_mul(6_364_136_223_846_793_005).wrapping_add(1_442_695_040_888_963_407);
        ((self.0 >> 33) % bound as u64) as usize
    }

    pub fn pick<T: Copy>(&mut self, things: &[T]) -> T {
        things[self.below(things.len())]
    }
}

#[derive(Default)]
pub struct Ledger {
    rows: Vec<(u16, Vec<usize>)>,
    equations: Vec<(usize, usize)>,
    differences: Vec<(usize, usize)>,
}

pub const FULL: usize = 255;

impl Ledger {
    /// The row of a term, a new one where there is none.
    pub fn row(&mut self, symbol: u16, arguments: &[usize]) -> usize {
        let row = (symbol, arguments.to_vec());
        self.rows.iter().position(|other| *other == row).unwrap_or_else(|| {
            self.rows.push(row);
            self.rows.len() - 1
        })
    }

    pub fn rows(&mut self, first_symbol: u16, count: usize) -> Vec<usize> {
        (0..count).map(|index| self.row(first_symbol + index as u16, &[])).collect()
    }

    pub fn equate(&mut self, left: usize, right: usize) {
        self.equations.push((left, right));
    }

    pub fn part(&mut self, left: usize, right: usize) {
        self.differences.push((left, right));
    }

    /// How many rows there is still room for.
    pub fn left(&self) -> usize {
        FULL - self.rows.len()
    }

    pub fn text(&self) -> String {
        assert!(self.rows.len() <= FULL && self.equations.len() <= FULL && self.differences.len() <= FULL);
        let rows = self.rows.iter().map(|(symbol, arguments)| symbol_line(1, *symbol, arguments));
        let equations = self.equations.iter().map(|pair| format!("02{:02X}{:02X}\n", pair.0, pair.1));
        let differences = self.differences.iter().map(|pair| format!("03{:02X}{:02X}\n", pair.0, pair.1));
        rows.chain(equations).chain(differences).collect()
    }
}

fn symbol_line(kind: u8, symbol: u16, arguments: &[usize]) -> String {
    let arguments_text: String = arguments.iter().map(|row| format!("{:02X}", row)).collect();
    format!("{:02X}{:04X}{:02X}{}\n", kind, symbol, arguments.len(), arguments_text)
}

/// A term of a rule.
#[derive(Clone, PartialEq, Eq, Hash)]
pub enum Term {
    Variable(u8),
    Symbol(u16, Vec<Term>),
}

pub fn over(symbol: u16, arguments: &[Term]) -> Term {
    Term::Symbol(symbol, arguments.to_vec())
}

/// A symbol applied so many times.
pub fn nested(symbol: u16, times: usize, term: &Term) -> Term {
    (0..times).fold(term.clone(), |inner, _| over(symbol, &[inner]))
}

#[derive(Clone)]
pub enum Literal {
    Equal(Term, Term),
    Unequal(Term, Term),
}

/// The pattern rows and literals of a rule.
pub fn rule(literals: &[Literal]) -> String {
    let mut patterns = Patterns::default();
    let mut lines = String::new();
    for literal in literals {
        let (kind, left, right) = match literal {
            Literal::Equal(left, right) => (6, left, right),
            Literal::Unequal(left, right) => (7, left, right),
        };
        lines += &format!("{:02X}{:02X}{:02X}\n", kind, patterns.row(left), patterns.row(right));
    }
    patterns.lines + &lines
}

#[derive(Default)]
struct Patterns {
    lines: String,
    numbers: HashMap<Term, usize>,
}

impl Patterns {
    fn row(&mut self, term: &Term) -> usize {
        if let Some(number) = self.numbers.get(term) {
            return *number;
        }
        let line = match term {
            Term::Variable(variable) => format!("04{:02X}\n", variable),
            Term::Symbol(symbol, arguments) => {
                let arguments: Vec<usize> = arguments.iter().map(|argument| self.row(argument)).collect();
                symbol_line(5, *symbol, &arguments)
            }
        };
        self.lines += &line;
        let number = self.numbers.len();
        self.numbers.insert(term.clone(), number);
        number
    }
}
