//! The efficient finder and normaliser behind the library's C boundary, so that the differential test tries them too.

#[allow(dead_code)]
#[path = "../../tests/boundary.rs"]
mod boundary;

use boundary::{refused, Record, Rows, Rule, Statements, BREACH, NONE, UNFIT, UNUSED};
use efficient::text::{Literal, Pattern, Row, Text, NO_ROW, NO_VARIABLE};
use efficient::Found;

/// # Safety
/// `bytes` has `length` bytes.
#[no_mangle]
pub unsafe extern "C" fn checker_find(bytes: *const u8, length: usize, rows: &mut Rows) -> u64 {
    packed(efficient::find(std::slice::from_raw_parts(bytes, length)), rows)
}

/// # Safety
/// `bytes` has `length` bytes.
#[no_mangle]
pub unsafe extern "C" fn checker_next(bytes: *const u8, length: usize, rows: &mut Rows) -> u64 {
    packed(efficient::next(std::slice::from_raw_parts(bytes, length), *rows), rows)
}

/// # Safety
/// `rows` has `count` records.
#[no_mangle]
pub unsafe extern "C" fn checker_find_rows(
    rows: *const Record,
    count: usize,
    said: &Statements,
    rule: &Rule,
    places: &mut Rows,
) -> u64 {
    match text_of(std::slice::from_raw_parts(rows, count), said, rule) {
        None => UNFIT,
        Some(text) => packed(efficient::find_in(text), places),
    }
}

/// What records, statements and a rule say, where they are well-formed.
fn text_of(rows: &[Record], said: &Statements, rule: &Rule) -> Option<Text> {
    if rows.len() > 255 || said.count > 510 || rule.patterns > 64 || rule.literals > 16 {
        return None;
    }
    let mut symbols = Symbols::default();
    let mut text = Text {
        rows: Vec::with_capacity(rows.len()),
        equations: Vec::new(),
        differences: Vec::new(),
        patterns: Vec::with_capacity(rule.patterns),
        literals: Vec::with_capacity(rule.literals),
        variables: 0,
        rows_end: 0,
    };
    for (number, record) in rows.iter().enumerate() {
        let mut arguments = [NO_ROW; 4];
        put_earlier(number, record.count, &record.args, &mut arguments)?;
        text.rows.push(Row { symbol: symbols.of(record.symbol, record.count), count: record.count, arguments });
    }
    for place in 0..said.count {
        let pairs = if said.kinds[place] == 2 { &mut text.equations } else { &mut text.differences };
        pairs.push(pair_below(rows.len(), said.lefts[place], said.rights[place])?);
    }
    for place in 0..rule.patterns {
        text.patterns.push(pattern_of(rule, place, &mut symbols)?);
    }
    text.variables = text.patterns.iter().map(|pattern| pattern.variable.wrapping_add(1) as usize).max().unwrap_or(0);
    for place in 0..rule.literals {
        let (left, right) = pair_below(rule.patterns, rule.lefts[place], rule.rights[place])?;
        text.literals.push(Literal { equal: rule.signs[place] == 6, left: left as u8, right: right as u8 });
    }
    Some(text)
}

fn pattern_of(rule: &Rule, place: usize, symbols: &mut Symbols) -> Option<Pattern> {
    let (head, count) = (rule.heads[place], rule.counts[place]);
    if rule.kinds[place] == 4 {
        return (head < 4).then_some(Pattern { variable: head as u8, symbol: 0, count: 0, arguments: [0; 4] });
    }
    let mut arguments = [0; 4];
    put_earlier(place, count, &rule.args[4 * place..], &mut arguments)?;
    let arguments = arguments.map(|row| row as u8);
    Some(Pattern { variable: NO_VARIABLE, symbol: symbols.of(head, count), count, arguments })
}

/// At most four arguments, each an earlier row.
fn put_earlier(number: usize, count: u8, args: &[u16], arguments: &mut [u16; 4]) -> Option<()> {
    let args = args.get(..count as usize).filter(|args| args.len() <= 4)?;
    arguments[..args.len()].copy_from_slice(args);
    args.iter().all(|row| usize::from(*row) < number).then_some(())
}

fn pair_below(bound: usize, left: u16, right: u16) -> Option<(u16, u16)> {
    (usize::from(left.max(right)) < bound).then_some((left, right))
}

/// A symbol with another count is another symbol.
#[derive(Default)]
struct Symbols {
    known: Vec<(u16, u8)>,
}

impl Symbols {
    fn of(&mut self, symbol: u16, count: u8) -> u16 {
        let place = self.known.iter().position(|known| *known == (symbol, count));
        place.unwrap_or_else(|| {
            self.known.push((symbol, count));
            self.known.len() - 1
        }) as u16
    }
}

fn packed(found: Found, rows: &mut Rows) -> u64 {
    match found {
        Found::None => NONE,
        Found::Refused(why) => refused(why.number, why.place as usize, why.offset as usize),
        Found::Breach(variables, found) => {
            *rows = found;
            rows[variables..].fill(UNUSED);
            BREACH + 256 * variables as u64
        }
    }
}

/// # Safety
/// `bytes` has `length` bytes, and `lent` has `space`.
#[no_mangle]
pub unsafe extern "C" fn checker_normalise(bytes: *const u8, length: usize, lent: *mut u8, space: usize) -> u64 {
    let lent = std::slice::from_raw_parts_mut(lent, space);
    match efficient::normalise(std::slice::from_raw_parts(bytes, length), lent) {
        Err(why) => refused(why.number, why.place as usize, why.offset as usize),
        Ok(bytes) => boundary::written(bytes),
    }
}
