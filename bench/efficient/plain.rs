//! The plain search: representatives in order, a literal tested as soon as its last variable is set. It counts tries, and gives
//! the next breach after an assignment.

use crate::model::Model;
use crate::sets::rows;
use crate::text::Text;
use crate::values::Values;

/// The number of rows tried for a variable until the first breach or the end; none beyond `most`.
pub fn tries(model: &Model, text: &Text, most: u64) -> Option<u64> {
    let mut plain = Plain::of(model, text, most, None);
    plain.run();
    (plain.tries <= most).then_some(plain.tries)
}

/// The first breach of representatives after an assignment.
pub fn next(model: &Model, text: &Text, after: [u16; 4]) -> Option<[u16; 4]> {
    let mut plain = Plain::of(model, text, u64::MAX, Some(after));
    plain.run().then_some(plain.rows)
}

struct Plain<'a> {
    model: &'a Model,
    text: &'a Text,
    values: Values<'a>,
    rows: [u16; 4],
    tries: u64,
    most: u64,
    after: Option<[u16; 4]>,
}

impl<'a> Plain<'a> {
    fn of(model: &'a Model, text: &'a Text, most: u64, after: Option<[u16; 4]>) -> Plain<'a> {
        Plain { model, text, values: Values::of(model, text), rows: [0; 4], tries: 0, most, after }
    }

    fn run(&mut self) -> bool {
        self.values.read(0, 0);
        self.values.hold(0) && self.choose(0)
    }

    /// Whether the rows of the first so many variables stand before those of the assignment that is to be passed.
    fn early(&self, variables: usize) -> bool {
        self.after.map_or(false, |after| self.rows[..variables] < after[..variables])
    }

    fn passed(&self) -> bool {
        let variables = self.text.variables;
        self.after.map_or(true, |after| self.rows[..variables] > after[..variables])
    }

    /// Whether the search is over: a breach, or too many tries.
    fn choose(&mut self, variable: usize) -> bool {
        if variable == self.text.variables {
            return self.passed();
        }
        let mark = self.values.mark();
        for row in rows(&self.model.all) {
            self.rows[variable] = row;
            if self.early(variable + 1) {
                continue;
            }
            self.tries += 1;
            self.values.read(variable + 1, row);
            if self.tries > self.most || self.values.hold(variable + 1) && self.choose(variable + 1) {
                return true;
            }
            self.values.forget(mark);
        }
        false
    }
}
