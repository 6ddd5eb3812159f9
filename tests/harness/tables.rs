//! The finder over records, beside the reference: what a text says, as records, and the same with one change. Most changes make them
//! not well-formed, some change what they say, and some change nothing.

use crate::boundary::{self, words, Record, Rows, Rule, Statements};
use crate::compare::{changed, packed, WATCHED_ROWS};
use crate::random::Random;
use crate::records::{said_by, MOST_STATEMENTS};
use reference::text::{read, Pattern, Text};
use reference::text::{MOST_ARGUMENTS, MOST_LITERALS, MOST_PATTERNS, MOST_ROWS, MOST_VARIABLES};
use reference::{find_in, Found};

/// So many changes are tried for each text.
const CHANGED: usize = 3;
/// The reference tries every assignment; changes that make more than so many are left out.
const ASSIGNMENTS: usize = 20_000;

pub struct Table {
    /// What was changed.
    change: &'static str,
    rows: Vec<Record>,
    said: Statements,
    rule: Rule,
}

type Change = fn(&mut Random, &mut Table);

const CHANGES: [(&str, Change); 17] = [
    ("what is not read", unread),
    ("a row's count", row_count),
    ("a row's argument", row_argument),
    ("a row's argument", row_argument),
    ("a row's symbol", row_symbol),
    ("rows to the limit", rows_to_the_limit),
    ("the last row left out", |_, table| table.rows.truncate(table.rows.len().saturating_sub(1))),
    ("a statement's side", statement_side),
    ("a statement's kind", statement_kind),
    ("statements to the limit", statements_to_the_limit),
    ("the number of statements", |random, table| table.said.count = near_length(random, MOST_STATEMENTS, table.said.count)),
    ("a pattern row's count", pattern_count),
    ("a pattern row's argument", pattern_argument),
    ("a pattern row's head or kind", pattern_head_or_kind),
    ("the number of pattern rows", |random, table| table.rule.patterns = near_length(random, MOST_PATTERNS, table.rule.patterns)),
    ("a literal", literal),
    ("the number of literals", |random, table| table.rule.literals = near_length(random, MOST_LITERALS, table.rule.literals)),
];

/// The tables of a text without a faulty line, the same for the same bytes: as it is, and after a change.
pub fn tables(bytes: &[u8]) -> Vec<Table> {
    let Ok(text) = read(bytes) else { return Vec::new() };
    let mut random = Random::of(bytes.len() as u64, bytes.iter().fold(0, |sum, byte| 31u64.wrapping_mul(sum) + u64::from(*byte)));
    let mut tables = vec![Table::of(&mut random, &text)];
    for _ in 0..CHANGED {
        let mut table = Table::of(&mut random, &text);
        let (name, change) = random.pick(&CHANGES);
        change(&mut random, &mut table);
        table.change = name;
        if table.assignments() <= ASSIGNMENTS {
            tables.push(table);
        }
    }
    tables
}

pub fn differences(bytes: &[u8]) -> Vec<String> {
    tables(bytes).iter().filter_map(Table::difference).collect()
}

impl Table {
    /// The table of a text. Equations and differences stand among each other, and what is not read holds anything.
    fn of(random: &mut Random, text: &Text) -> Table {
        let mut table = Table::of_noise(random);
        for row in &text.rows {
            let mut record = Record { symbol: row.symbol, count: row.arguments.len() as u8, args: noises(random) };
            put_all(&mut record.args, &row.arguments);
            table.rows.push(record);
        }
        let (mut equations, mut differences) = (text.equations.iter().peekable(), text.differences.iter().peekable());
        while equations.peek().is_some() || differences.peek().is_some() {
            let equation = differences.peek().is_none() || equations.peek().is_some() && random.one_in(2);
            let (kind, from) = if equation { (2, &mut equations) } else { (3, &mut differences) };
            table.state(kind, *from.next().expect("a statement"));
        }
        text.patterns.iter().for_each(|pattern| table.add_pattern(pattern));
        for literal in &text.literals {
            let place = table.rule.literals;
            table.rule.signs[place] = if literal.equal { 6 } else { 7 };
            (table.rule.lefts[place], table.rule.rights[place]) = (literal.sides.0 as u16, literal.sides.1 as u16);
            table.rule.literals += 1;
        }
        table
    }

    /// No rows, no statements and no rule.
    fn of_noise(random: &mut Random) -> Table {
        Table {
            change: "no change",
            rows: Vec::new(),
            said: Statements { kinds: noise_bytes(random), lefts: noises(random), rights: noises(random), count: 0 },
            rule: Rule {
                patterns: 0,
                kinds: noise_bytes(random),
                heads: noises(random),
                counts: noise_bytes(random),
                args: noises(random),
                literals: 0,
                signs: noise_bytes(random),
                lefts: noises(random),
                rights: noises(random),
            },
        }
    }

    fn state(&mut self, kind: u8, pair: (usize, usize)) {
        let place = self.said.count;
        self.said.kinds[place] = kind;
        (self.said.lefts[place], self.said.rights[place]) = (pair.0 as u16, pair.1 as u16);
        self.said.count += 1;
    }

    fn add_pattern(&mut self, pattern: &Pattern) {
        let rule = &mut self.rule;
        let place = rule.patterns;
        match pattern {
            Pattern::Variable(number) => (rule.kinds[place], rule.heads[place]) = (4, *number as u16),
            Pattern::Symbol(row) => {
                (rule.kinds[place], rule.heads[place]) = (5, row.symbol);
                rule.counts[place] = row.arguments.len() as u8;
                put_all(&mut rule.args[4 * place..], &row.arguments);
            }
        }
        rule.patterns += 1;
    }

    /// As many as there are at most to try, the variable after the last one counted too.
    fn assignments(&self) -> usize {
        let patterns = 0..self.rule.patterns.min(MOST_PATTERNS);
        let numbers = patterns.filter(|place| self.rule.kinds[*place] == 4).map(|place| self.rule.heads[place]);
        let variables = numbers.map(|number| number.min(MOST_VARIABLES as u16) + 1).max().unwrap_or(0);
        self.rows.len().saturating_pow(u32::from(variables))
    }

    pub fn well_formed(&self) -> bool {
        said_by(&self.rows, &self.said, &self.rule).is_some()
    }

    fn expected(&self) -> (u64, Rows) {
        match said_by(&self.rows, &self.said, &self.rule).map(find_in) {
            None => (boundary::UNFIT, WATCHED_ROWS),
            Some(Found::Breach(rows)) => boundary::breach(&rows),
            Some(Found::None) => (boundary::NONE, WATCHED_ROWS),
            Some(Found::Refused(refused)) => (packed(&refused), WATCHED_ROWS),
        }
    }

    fn difference(&self) -> Option<String> {
        let (reply, places) = self.expected();
        let mut got_places = WATCHED_ROWS;
        let got = boundary::find_rows(&self.rows, &self.said, &self.rule, &mut got_places);
        if (got, got_places) == (reply, places) {
            return None;
        }
        let says = |reply: u64, places: &Rows| format!("{}{}", words(reply), changed(places));
        Some(format!("records, {}: {}, the reference says {}", self.change, says(got, &got_places), says(reply, &places)))
    }

    fn some_statement(&self, random: &mut Random) -> Option<usize> {
        some_place(random, self.said.count)
    }

    fn some_pattern(&self, random: &mut Random) -> Option<usize> {
        some_place(random, self.rule.patterns)
    }
}

fn put_all(args: &mut [u16], rows: &[usize]) {
    args.iter_mut().zip(rows).for_each(|(place, row)| *place = *row as u16);
}

fn some_place(random: &mut Random, length: usize) -> Option<usize> {
    (length > 0).then(|| random.below(length))
}

/// A number of a row or of something else that is there, or of nothing.
fn noise(random: &mut Random) -> u16 {
    let bound = *random.pick(&[8, 256, 65_536]);
    random.below(bound) as u16
}

fn noises<const N: usize>(random: &mut Random) -> [u16; N] {
    std::array::from_fn(|_| noise(random))
}

fn noise_bytes<const N: usize>(random: &mut Random) -> [u8; N] {
    std::array::from_fn(|_| random.byte() % 8)
}

/// The first number that names nothing, the last that names something, one that does so by its low byte, or any.
fn near(random: &mut Random, bound: usize) -> u16 {
    match random.below(5) {
        0 | 1 => bound as u16,
        2 => bound.saturating_sub(1) as u16,
        3 => 256 + random.below(bound.max(1)) as u16,
        _ => noise(random),
    }
}

/// One more than there is room for, as many as there are by the low bits, or a few more or fewer.
fn near_length(random: &mut Random, most: usize, length: usize) -> usize {
    match random.below(5) {
        0 => most + 1,
        1 => length + *random.pick(&[1 << 8, 1 << 16, 1 << 32, 1 << 63]),
        2 => usize::MAX,
        3 => length + 1,
        _ => length.saturating_sub(random.within(1, 3)),
    }
}

fn any_count(random: &mut Random) -> u8 {
    if random.one_in(3) {
        return random.byte();
    }
    random.within(0, MOST_ARGUMENTS + 1) as u8
}

/// Anything but this number.
fn other_byte(random: &mut Random, byte: u8) -> u8 {
    byte.wrapping_add(random.within(1, 255) as u8)
}

/// Every place from a count on.
fn unread(random: &mut Random, table: &mut Table) {
    for record in &mut table.rows {
        record.args[usize::from(record.count)..].iter_mut().for_each(|place| *place = noise(random));
    }
    let (said, rule) = (&mut table.said, &mut table.rule);
    said.kinds[said.count..].fill(random.byte());
    said.lefts[said.count..].fill(noise(random));
    said.rights[said.count..].fill(noise(random));
    for place in 0..MOST_PATTERNS {
        if rule.kinds[place] == 4 {
            rule.counts[place] = random.byte();
        }
        let read = if place >= rule.patterns || rule.kinds[place] == 4 { 0 } else { usize::from(rule.counts[place]) };
        rule.args[4 * place + read..4 * place + 4].fill(noise(random));
    }
    rule.kinds[rule.patterns..].fill(random.byte());
    rule.heads[rule.patterns..].fill(noise(random));
    rule.counts[rule.patterns..].fill(random.byte());
    rule.signs[rule.literals..].fill(random.byte());
    rule.lefts[rule.literals..].fill(noise(random));
    rule.rights[rule.literals..].fill(noise(random));
}

/// At times one that a row with the same symbol does not have.
fn row_count(random: &mut Random, table: &mut Table) {
    let Some(place) = some_place(random, table.rows.len()) else { return };
    table.rows[place].count = any_count(random);
    if random.one_in(2) {
        table.rows[place].args.fill(random.below(place.max(1)) as u16);
    }
}

/// Mostly of an argument that is read.
fn row_argument(random: &mut Random, table: &mut Table) {
    let with_arguments: Vec<usize> = (0..table.rows.len()).filter(|place| table.rows[*place].count > 0).collect();
    let Some(place) = some_place(random, with_arguments.len()) else { return };
    let place = with_arguments[place];
    let argument = if random.one_in(4) { random.below(4) } else { random.below(usize::from(table.rows[place].count)) };
    table.rows[place].args[argument] = near(random, place);
}

/// Another row's symbol, which may have another count, or a new one.
fn row_symbol(random: &mut Random, table: &mut Table) {
    let Some(place) = some_place(random, table.rows.len()) else { return };
    let other = random.below(table.rows.len());
    table.rows[place].symbol = if random.one_in(4) { noise(random) } else { table.rows[other].symbol };
}

/// Rows again, until there are 255, 256 or more.
fn rows_to_the_limit(random: &mut Random, table: &mut Table) {
    let length = MOST_ROWS + *random.pick(&[0, 1, 1, 2, 256]);
    while table.rows.len() < length {
        let again = some_place(random, table.rows.len()).map(|place| table.rows[place]);
        table.rows.push(again.unwrap_or(Record { symbol: 0, count: 0, args: noises(random) }));
    }
}

fn statement_side(random: &mut Random, table: &mut Table) {
    let Some(place) = table.some_statement(random) else { return };
    let side = near(random, table.rows.len());
    let sides = if random.one_in(2) { &mut table.said.lefts } else { &mut table.said.rights };
    sides[place] = side;
}

fn statement_kind(random: &mut Random, table: &mut Table) {
    let Some(place) = table.some_statement(random) else { return };
    table.said.kinds[place] = other_byte(random, table.said.kinds[place]);
}

/// Statements again, until there are 510 or one fewer. A text has no more than 255 of either kind.
fn statements_to_the_limit(random: &mut Random, table: &mut Table) {
    let Some(place) = table.some_statement(random) else { return };
    let (kind, pair) = (table.said.kinds[place], (table.said.lefts[place].into(), table.said.rights[place].into()));
    for _ in table.said.count..MOST_STATEMENTS - random.below(2) {
        table.state(kind, pair);
    }
}

fn pattern_count(random: &mut Random, table: &mut Table) {
    let Some(place) = table.some_pattern(random) else { return };
    table.rule.counts[place] = any_count(random);
    if random.one_in(2) {
        table.rule.args[4 * place..4 * place + 4].fill(random.below(place.max(1)) as u16);
    }
}

fn pattern_argument(random: &mut Random, table: &mut Table) {
    let Some(place) = table.some_pattern(random) else { return };
    let read = usize::from(table.rule.counts[place]).clamp(1, 4);
    table.rule.args[4 * place + random.below(read)] = near(random, place);
}

/// A head is a symbol or a variable's number.
fn pattern_head_or_kind(random: &mut Random, table: &mut Table) {
    let Some(place) = table.some_pattern(random) else { return };
    let rule = &mut table.rule;
    if random.one_in(3) {
        rule.kinds[place] = if rule.kinds[place] == 4 || random.one_in(2) { other_byte(random, 4) } else { 4 };
    } else if rule.kinds[place] == 4 {
        rule.heads[place] = near(random, MOST_VARIABLES);
    } else if let Some(row) = some_place(random, table.rows.len()) {
        rule.heads[place] = table.rows[row].symbol;
    }
}

fn literal(random: &mut Random, table: &mut Table) {
    let Some(place) = some_place(random, table.rule.literals) else { return };
    let side = near(random, table.rule.patterns);
    match random.below(3) {
        0 => table.rule.signs[place] = other_byte(random, table.rule.signs[place]),
        1 => table.rule.lefts[place] = side,
        _ => table.rule.rights[place] = side,
    }
}
