//! Narrowing: which classes each pattern row can have, read upward from the candidates of the variables, cut by the literals,
//! and read downward again, until nothing changes. What is left out is in no breach.

use crate::model::{Fact, Model};
use crate::sets::{add_all, both, has, insert, rows, size, Set, EMPTY};
use crate::text::{Text, NO_VARIABLE};
use crate::values::rows_under;

pub struct Narrowing<'a> {
    model: &'a Model,
    text: &'a Text,
    facts_of: [(u16, u16); 64],
}

/// What each pattern row can be: the classes, and whether it may lie outside the table.
pub struct Possible {
    classes: [Set; 64],
    outside: u64,
}

impl Possible {
    pub fn nothing() -> Possible {
        Possible { classes: [EMPTY; 64], outside: 0 }
    }

    fn may_lie_outside(&self, row: usize) -> bool {
        self.outside >> row & 1 == 1
    }

    fn set_outside(&mut self, row: usize, may: bool) {
        self.outside = self.outside & !(1 << row) | u64::from(may) << row;
    }
}

impl<'a> Narrowing<'a> {
    pub fn of(model: &'a Model, text: &'a Text) -> Narrowing<'a> {
        let mut facts_of = [(0, 0); 64];
        for (number, pattern) in text.patterns.iter().enumerate() {
            if pattern.variable == NO_VARIABLE {
                facts_of[number] = model.facts_of(pattern.symbol);
            }
        }
        Narrowing { model, text, facts_of }
    }

    /// False: no breach is left. What `possible` holds before does not matter; it is lent, so as not to be made each time.
    pub fn narrow(&self, possible: &mut Possible, candidates: &mut [Set; 4], literals: u16) -> bool {
        let reached = rows_under(self.text, literals);
        loop {
            self.upward(possible, candidates, reached);
            if !self.cut(possible, literals) {
                return false;
            }
            match self.downward(possible, candidates, reached) {
                None => return false,
                Some(false) => return true,
                Some(true) => {}
            }
        }
    }

    fn facts(&self, row: usize) -> &[Fact] {
        let (first, end) = self.facts_of[row];
        &self.model.facts[first as usize..end as usize]
    }

    /// Whether the arguments of a pattern row can be those of a fact.
    #[inline(always)]
    fn fits(&self, possible: &Possible, row: usize, fact: &Fact) -> bool {
        let pattern = &self.text.patterns[row];
        (0..pattern.count as usize).all(|place| has(&possible.classes[pattern.arguments[place] as usize], fact.arguments[place]))
    }

    fn upward(&self, possible: &mut Possible, candidates: &[Set; 4], reached: u64) {
        for row in (0..self.text.patterns.len()).filter(|row| reached >> row & 1 == 1) {
            let pattern = &self.text.patterns[row];
            if pattern.variable != NO_VARIABLE {
                possible.classes[row] = candidates[pattern.variable as usize];
                possible.set_outside(row, false);
                continue;
            }
            let mut classes = EMPTY;
            let mut fitting = false;
            for fact in self.facts(row).iter().filter(|fact| self.fits(possible, row, fact)) {
                insert(&mut classes, fact.class);
                fitting = true;
            }
            let mut arguments = pattern.arguments();
            let fixed = arguments.all(|argument| !possible.may_lie_outside(argument) && size(&possible.classes[argument]) == 1);
            possible.classes[row] = classes;
            possible.set_outside(row, !(fixed && fitting));
        }
    }

    fn cut(&self, possible: &mut Possible, literals: u16) -> bool {
        self.text.literals.iter().enumerate().filter(|(number, _)| literals >> number & 1 == 1).all(|(_, literal)| {
            let (left, right) = (literal.left as usize, literal.right as usize);
            if literal.equal {
                self.equate(possible, left, right)
            } else {
                self.keep_apart(possible, left, right) && self.keep_apart(possible, right, left)
            }
        })
    }

    /// Equal instances: a class of both, or both outside with one symbol over equal arguments.
    fn equate(&self, possible: &mut Possible, left: usize, right: usize) -> bool {
        let common = both(&possible.classes[left], &possible.classes[right]);
        let outside = possible.may_lie_outside(left) && possible.may_lie_outside(right);
        for row in [left, right] {
            possible.classes[row] = common;
            possible.set_outside(row, outside);
        }
        if common != EMPTY {
            return true;
        }
        let (one, other) = (&self.text.patterns[left], &self.text.patterns[right]);
        outside && one.symbol == other.symbol && one.arguments().zip(other.arguments()).all(|(a, b)| self.equate(possible, a, b))
    }

    /// Instances that differ are in classes: cuts those of `right` to what differs from some class of `left`.
    fn keep_apart(&self, possible: &mut Possible, left: usize, right: usize) -> bool {
        let mut apart = EMPTY;
        for (word, bits) in possible.classes[left].into_iter().enumerate() {
            let mut open = bits;
            while open != 0 {
                add_all(&mut apart, &self.model.apart[64 * word + open.trailing_zeros() as usize]);
                open &= open - 1;
            }
        }
        if self.model.arguments != EMPTY {
            self.add_following(&mut apart, &possible.classes[left], &possible.classes[right]);
        }
        possible.classes[right] = both(&possible.classes[right], &apart);
        possible.set_outside(right, false);
        possible.classes[right] != EMPTY
    }

    /// Adds the classes of `right` that differ from one of `left` by what follows.
    #[inline(never)]
    fn add_following(&self, apart: &mut Set, left: &Set, right: &Set) {
        let others = both(left, &self.model.arguments);
        for class in rows(&both(right, &self.model.arguments)) {
            if !has(apart, class) && rows(&others).any(|other| self.model.differ(class, other)) {
                insert(apart, class);
            }
        }
    }

    /// Whether a candidate was left out; none where a variable or a pattern row has nothing left.
    fn downward(&self, possible: &mut Possible, candidates: &mut [Set; 4], reached: u64) -> Option<bool> {
        let mut changed = false;
        for row in (0..self.text.patterns.len()).rev().filter(|row| reached >> row & 1 == 1) {
            let pattern = &self.text.patterns[row];
            if pattern.variable != NO_VARIABLE {
                let old = &mut candidates[pattern.variable as usize];
                let left = both(old, &possible.classes[row]);
                changed |= left != *old;
                *old = left;
                if left == EMPTY {
                    return None;
                }
            } else if !possible.may_lie_outside(row) && pattern.count > 0 {
                self.into_arguments(possible, row)?;
            }
        }
        Some(changed)
    }

    /// A row inside the table has the arguments of some fact.
    fn into_arguments(&self, possible: &mut Possible, row: usize) -> Option<()> {
        let pattern = &self.text.patterns[row];
        let mut arguments = [EMPTY; 4];
        let mut fitting = false;
        for fact in self.facts(row) {
            if has(&possible.classes[row], fact.class) && self.fits(possible, row, fact) {
                fitting = true;
                for place in 0..pattern.count as usize {
                    insert(&mut arguments[place], fact.arguments[place]);
                }
            }
        }
        for (place, argument) in pattern.arguments().enumerate() {
            possible.classes[argument] = both(&possible.classes[argument], &arguments[place]);
            possible.set_outside(argument, false);
        }
        fitting.then_some(())
    }
}
