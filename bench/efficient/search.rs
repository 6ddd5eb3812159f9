//! The search for the first breach. Variables that no literal joins are searched apart; a variable that a literal equates with
//! something known is set at once; the candidates of the others are narrowed before each choice.

use crate::model::Model;
use crate::narrow::{Narrowing, Possible};
use crate::sets::{has, only, rows, size, Set};
use crate::text::{Text, NO_VARIABLE};
use crate::values::{Values, OUTSIDE};

const NOT_GIVEN: u8 = 255;
/// A last variable with so few candidates is tried without narrowing.
const FEW: u32 = 16;

pub struct Search<'a> {
    model: &'a Model,
    text: &'a Text,
    values: Values<'a>,
    narrowing: Narrowing<'a>,
    possible: Possible,
    /// The variables that a pattern row reaches, as bits.
    reach: [u8; 64],
    /// The pattern row that gives a variable's value, over lower variables only.
    given: [u8; 4],
    rows: [u16; 4],
    /// How many rows were tried for a variable.
    pub tries: u64,
}

impl<'a> Search<'a> {
    pub fn of(model: &'a Model, text: &'a Text) -> Search<'a> {
        let mut search = Search {
            model,
            text,
            values: Values::of(model, text),
            narrowing: Narrowing::of(model, text),
            possible: Possible::nothing(),
            reach: [0; 64],
            given: [NOT_GIVEN; 4],
            rows: [0; 4],
            tries: 0,
        };
        search.set_reach();
        search.set_given();
        search
    }

    fn set_reach(&mut self) {
        for (number, pattern) in self.text.patterns.iter().enumerate() {
            self.reach[number] = match pattern.variable {
                NO_VARIABLE => pattern.arguments().fold(0, |reach, argument| reach | self.reach[argument]),
                variable => 1 << variable,
            };
        }
    }

    fn set_given(&mut self) {
        for literal in self.text.literals.iter().filter(|literal| literal.equal) {
            for (row, giving) in [(literal.left, literal.right), (literal.right, literal.left)] {
                let variable = self.text.patterns[row as usize].variable;
                if variable != NO_VARIABLE && self.values.level[giving as usize] <= variable {
                    self.given[variable as usize] = giving;
                }
            }
        }
    }

    /// The rows of the first breach.
    pub fn first(&mut self) -> Option<[u16; 4]> {
        if self.text.variables > 0 && self.text.rows.is_empty() {
            return None;
        }
        self.values.read(0, 0);
        let never = self.text.literals.iter().any(|literal| !literal.equal && literal.left == literal.right);
        if never || !self.values.hold(0) {
            return None;
        }
        let groups = self.groups();
        let mut done = 0u8;
        for variable in 0..self.text.variables {
            let group = groups[variable];
            if done >> variable & 1 == 0 && !self.search_group(group) {
                return None;
            }
            done |= group;
        }
        Some(self.rows)
    }

    /// The variables that literals join with each variable, as bits.
    fn groups(&self) -> [u8; 4] {
        let mut groups = [1u8, 2, 4, 8];
        for _ in 0..3 {
            for literal in self.text.literals.iter().filter(|literal| literal.left != literal.right) {
                let joined = self.reach[literal.left as usize] | self.reach[literal.right as usize];
                let whole = (0..4)
                    .filter(|variable| joined >> variable & 1 == 1)
                    .fold(joined, |whole, variable| whole | groups[variable]);
                (0..4).filter(|variable| whole >> variable & 1 == 1).for_each(|variable| groups[variable] |= whole);
            }
        }
        groups
    }

    fn search_group(&mut self, group: u8) -> bool {
        let mut literals = 0u16;
        for (number, literal) in self.text.literals.iter().enumerate() {
            let reach = self.reach[literal.left as usize] | self.reach[literal.right as usize];
            literals |= u16::from(literal.left != literal.right && reach & group != 0) << number;
        }
        let mut candidates = [self.model.all; 4];
        if literals == 0 {
            let variable = group.trailing_zeros() as usize;
            self.rows[variable] = self.model.first;
            self.values.read(variable + 1, self.model.first);
            return true;
        }
        self.narrowing.narrow(&mut self.possible, &mut candidates, literals) && self.choose(group, candidates, literals, true)
    }

    /// Chooses rows for the variables of `open`, lowest first. `fresh`: the candidates were narrowed just now.
    fn choose(&mut self, open: u8, mut candidates: [Set; 4], literals: u16, fresh: bool) -> bool {
        if open == 0 {
            return true;
        }
        let variable = open.trailing_zeros() as usize;
        let rest = open & (open - 1);
        if self.given[variable] != NOT_GIVEN {
            let class = self.values.value[self.given[variable] as usize];
            if class >= OUTSIDE || !has(&candidates[variable], class) {
                return false;
            }
            candidates[variable] = only(class);
        } else if !fresh
            && (rest != 0 || size(&candidates[variable]) > FEW)
            && !self.narrowing.narrow(&mut self.possible, &mut candidates, literals)
        {
            return false;
        }
        let mark = self.values.mark();
        for row in rows(&candidates[variable]) {
            self.tries += 1;
            self.rows[variable] = row;
            self.values.read(variable + 1, row);
            if self.values.hold(variable + 1) {
                let mut left = candidates;
                left[variable] = only(row);
                if self.choose(rest, left, literals, false) {
                    return true;
                }
            }
            self.values.forget(mark);
        }
        false
    }
}
