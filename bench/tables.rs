//! A text's context as records, statements and a rule.

use crate::boundary::{Record, Rule, Statements};
use efficient::text::{Pattern, Text, NO_VARIABLE};

pub struct Table {
    pub rows: Vec<Record>,
    pub said: Statements,
    pub rule: Rule,
}

impl Table {
    pub fn of(text: &Text) -> Table {
        let rows = text.rows.iter().map(|row| Record { symbol: row.symbol, count: row.count, args: row.arguments });
        let mut table = Table {
            rows: rows.collect(),
            said: Statements { kinds: [0; 510], lefts: [0; 510], rights: [0; 510], count: 0 },
            rule: Rule {
                patterns: 0,
                kinds: [0; 64],
                heads: [0; 64],
                counts: [0; 64],
                args: [0; 256],
                literals: 0,
                signs: [0; 16],
                lefts: [0; 16],
                rights: [0; 16],
            },
        };
        text.equations.iter().for_each(|pair| table.state(2, *pair));
        text.differences.iter().for_each(|pair| table.state(3, *pair));
        text.patterns.iter().for_each(|pattern| table.add(pattern));
        for literal in &text.literals {
            let place = table.rule.literals;
            table.rule.signs[place] = if literal.equal { 6 } else { 7 };
            (table.rule.lefts[place], table.rule.rights[place]) = (literal.left.into(), literal.right.into());
            table.rule.literals += 1;
        }
        table
    }

    fn state(&mut self, kind: u8, (left, right): (u16, u16)) {
        let said = &mut self.said;
        said.kinds[said.count] = kind;
        (said.lefts[said.count], said.rights[said.count]) = (left, right);
        said.count += 1;
    }

    fn add(&mut self, pattern: &Pattern) {
        let rule = &mut self.rule;
        let place = rule.patterns;
        rule.patterns += 1;
        if pattern.variable != NO_VARIABLE {
            (rule.kinds[place], rule.heads[place]) = (4, pattern.variable.into());
            return;
        }
        (rule.kinds[place], rule.heads[place], rule.counts[place]) = (5, pattern.symbol, pattern.count);
        for (argument, row) in pattern.arguments().enumerate() {
            rule.args[4 * place + argument] = row as u16;
        }
    }
}
