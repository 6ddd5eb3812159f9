//! The values of pattern rows under an assignment: a class, or the pattern row at which an instance outside the table was first
//! met. Rows are read in the order of their levels, the highest variable that they reach.

use crate::closing::signature;
use crate::model::Model;
use crate::text::{Literal, Text, NO_ROW, NO_VARIABLE};

/// Values from here on are instances outside the table.
pub const OUTSIDE: u16 = 1024;
const LEVELS: usize = 5;

pub struct Values<'a> {
    model: &'a Model,
    text: &'a Text,
    pub level: [u8; 64],
    rows_at: [Vec<u8>; LEVELS],
    literals_at: [Vec<u8>; LEVELS],
    pub value: [u16; 64],
    outside: Vec<(u64, u16)>,
}

impl<'a> Values<'a> {
    pub fn of(model: &'a Model, text: &'a Text) -> Values<'a> {
        let mut values = Values {
            model,
            text,
            level: [0; 64],
            rows_at: Default::default(),
            literals_at: Default::default(),
            value: [0; 64],
            outside: Vec::with_capacity(64),
        };
        values.set_levels(rows_under(text, u16::MAX));
        values
    }

    fn set_levels(&mut self, reached: u64) {
        for (number, pattern) in self.text.patterns.iter().enumerate() {
            let level = match pattern.variable {
                NO_VARIABLE => pattern.arguments().map(|row| self.level[row]).max().unwrap_or(0),
                variable => variable + 1,
            };
            self.level[number] = level;
            if reached >> number & 1 == 1 {
                self.rows_at[level as usize].push(number as u8);
            }
        }
        for (number, literal) in self.text.literals.iter().enumerate() {
            let level = self.level[literal.left as usize].max(self.level[literal.right as usize]);
            self.literals_at[level as usize].push(number as u8);
        }
    }

    /// How many outside instances there are: what `forget` goes back to.
    pub fn mark(&self) -> usize {
        self.outside.len()
    }

    pub fn forget(&mut self, mark: usize) {
        self.outside.truncate(mark);
    }

    /// Reads the rows of a level. Below it all variables are set.
    #[inline(always)]
    pub fn read(&mut self, level: usize, class: u16) {
        let text = self.text;
        for index in 0..self.rows_at[level].len() {
            let number = self.rows_at[level][index] as usize;
            self.value[number] = match text.patterns[number].variable {
                NO_VARIABLE => self.instance(number),
                _ => class,
            };
        }
    }

    #[inline(always)]
    fn instance(&mut self, number: usize) -> u16 {
        let pattern = &self.text.patterns[number];
        let (mut arguments, mut inside) = ([NO_ROW; 4], true);
        for place in 0..pattern.count as usize {
            arguments[place] = self.value[pattern.arguments[place] as usize];
            inside &= arguments[place] < OUTSIDE;
        }
        let key = signature(pattern.symbol, arguments);
        let class = if inside { self.model.signatures.get(key) } else { NO_ROW };
        if class != NO_ROW {
            return class;
        }
        if let Some(entry) = self.outside.iter().find(|entry| entry.0 == key) {
            return entry.1;
        }
        self.outside.push((key, OUTSIDE + number as u16));
        OUTSIDE + number as u16
    }

    /// Whether the literals hold that were open until this level.
    #[inline(always)]
    pub fn hold(&self, level: usize) -> bool {
        self.literals_at[level].iter().all(|number| self.holds(&self.text.literals[*number as usize]))
    }

    #[inline(always)]
    fn holds(&self, literal: &Literal) -> bool {
        let (left, right) = (self.value[literal.left as usize], self.value[literal.right as usize]);
        if literal.equal {
            return left == right;
        }
        left < OUTSIDE && right < OUTSIDE && self.model.differ(left, right)
    }
}

/// The pattern rows that the chosen literals reach, as bits.
pub fn rows_under(text: &Text, literals: u16) -> u64 {
    let mut reached = 0u64;
    for (number, literal) in text.literals.iter().enumerate() {
        if literals >> number & 1 == 1 {
            reached |= 1 << literal.left | 1 << literal.right;
        }
    }
    for (number, pattern) in text.patterns.iter().enumerate().rev() {
        if reached >> number & 1 == 1 {
            reached = pattern.arguments().fold(reached, |rows, argument| rows | 1 << argument);
        }
    }
    reached
}
