//! A closed context, laid out for a search.

use std::cell::RefCell;

use crate::closing::{over_classes, signature, Signatures};
use crate::differing::Differing;
use crate::sets::{has, insert, Set, EMPTY};
use crate::text::{Text, NO_ROW};

/// A symbol over classes is in a class.
#[derive(Clone, Copy)]
pub struct Fact {
    pub symbol: u16,
    pub class: u16,
    pub arguments: [u16; 4],
}

pub struct Model {
    pub all: Set,
    pub first: u16,
    pub signatures: Signatures,
    /// One for each signature, sorted by symbol.
    pub facts: Vec<Fact>,
    /// The classes that are kept apart from a class.
    pub apart: Vec<Set>,
    /// The classes that are arguments, where there is a difference at all: two others differ only if they are kept apart.
    pub arguments: Set,
    /// Made when it is first asked.
    differing: RefCell<Option<Box<Differing>>>,
}

impl Model {
    pub fn of(text: &Text, representatives: Vec<u16>) -> Model {
        let mut model = Model {
            all: EMPTY,
            first: if text.rows.is_empty() { NO_ROW } else { 0 },
            signatures: Signatures::with_room_for(text.rows.len()),
            facts: Vec::with_capacity(text.rows.len()),
            apart: vec![EMPTY; text.rows.len()],
            arguments: EMPTY,
            differing: RefCell::new(None),
        };
        model.enter_rows(text, &representatives);
        for (left, right) in &text.differences {
            let (left, right) = (representatives[*left as usize], representatives[*right as usize]);
            insert(&mut model.apart[left as usize], right);
            insert(&mut model.apart[right as usize], left);
        }
        model
    }

    fn enter_rows(&mut self, text: &Text, representatives: &[u16]) {
        for (number, row) in text.rows.iter().enumerate() {
            let class = representatives[number];
            if class as usize == number {
                insert(&mut self.all, class);
            }
            let arguments = over_classes(row, representatives);
            if !text.differences.is_empty() {
                arguments[..row.count as usize].iter().for_each(|class| insert(&mut self.arguments, *class));
            }
            if self.signatures.put(signature(row.symbol, arguments), class) == NO_ROW {
                self.facts.push(Fact { symbol: row.symbol, class, arguments });
            }
        }
        self.facts.sort_by_key(|fact| fact.symbol);
    }

    /// Where the facts of a symbol stand.
    pub fn facts_of(&self, symbol: u16) -> (u16, u16) {
        let first = self.facts.partition_point(|fact| fact.symbol < symbol);
        let more = self.facts[first..].iter().take_while(|fact| fact.symbol == symbol).count();
        (first as u16, (first + more) as u16)
    }

    /// Whether the equation of two classes would make the sides of a stated difference equal.
    #[inline(always)]
    pub fn differ(&self, left: u16, right: u16) -> bool {
        has(&self.apart[left as usize], right)
            || left != right && has(&self.arguments, left) && has(&self.arguments, right) && self.follows(left, right)
    }

    #[inline(never)]
    fn follows(&self, left: u16, right: u16) -> bool {
        let mut differing = self.differing.borrow_mut();
        let differing = differing.get_or_insert_with(|| Box::new(Differing::of(&self.facts, &self.apart)));
        differing.ask(&self.facts, &self.signatures, left, right)
    }
}
