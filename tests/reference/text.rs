//! The text: bytes to a context and a clause, or the first fault, by refusals 1 to 7.
//!
//! A line's tests stand in `take` in the order of their numbers, each a function of its own.

/// Why a text gets no other reply. The offset is a byte of the line, from 0.
#[derive(Clone, Debug, PartialEq)]
pub struct Refusal {
    pub number: u8,
    pub place: usize,
    pub offset: usize,
}

/// One that names no byte: 8 to 11.
pub fn refusal(number: u8, place: usize) -> Refusal {
    Refusal { number, place, offset: 0 }
}

/// Where offsets stop.
pub const FURTHEST: usize = 65_535;

/// What is wrong with a line, and the byte of it that is to be mended.
struct Fault {
    number: u8,
    offset: usize,
}

/// Refusals 2 to 5 and 7 name the line's first byte.
impl From<u8> for Fault {
    fn from(number: u8) -> Fault {
        Fault { number, offset: 0 }
    }
}

impl Fault {
    fn at(self, place: usize) -> Refusal {
        Refusal { number: self.number, place, offset: self.offset.min(FURTHEST) }
    }
}

/// A symbol over earlier rows.
#[derive(Clone, Debug, PartialEq)]
pub struct Row {
    pub symbol: u16,
    pub arguments: Vec<usize>,
}

/// A variable, or a symbol over earlier pattern rows.
#[derive(Clone, Debug, PartialEq)]
pub enum Pattern {
    Variable(usize),
    Symbol(Row),
}

/// Two rows, or two pattern rows.
pub type Pair = (usize, usize);

#[derive(Clone, Debug, PartialEq)]
pub struct Literal {
    pub equal: bool,
    pub sides: Pair,
}

/// What a text without a fault says.
#[derive(Clone, Debug, Default, PartialEq)]
pub struct Text {
    pub rows: Vec<Row>,
    pub equations: Vec<Pair>,
    pub differences: Vec<Pair>,
    pub patterns: Vec<Pattern>,
    pub literals: Vec<Literal>,
}

pub const MOST_ROWS: usize = 255;
pub const MOST_EQUATIONS: usize = 255;
pub const MOST_DIFFERENCES: usize = 255;
pub const MOST_PATTERNS: usize = 64;
pub const MOST_LITERALS: usize = 16;
pub const MOST_ARGUMENTS: usize = 4;
pub const MOST_VARIABLES: usize = 4;

/// The earliest faulty line decides, and in it the lowest number.
pub fn read(bytes: &[u8]) -> Result<Text, Refusal> {
    let mut text = Text::default();
    let mut rank = 0;
    for (index, line) in lines(bytes).into_iter().enumerate() {
        rank = take(&mut text, rank, line).map_err(|fault| fault.at(index + 1))?;
    }
    Ok(text)
}

/// The lines with their line feeds. Nothing follows the last line feed.
fn lines(bytes: &[u8]) -> Vec<&[u8]> {
    bytes.split_inclusive(|byte| *byte == b'\n').collect()
}

/// Adds what a line says, and gives the line's rank; or its first fault.
fn take(text: &mut Text, rank: u8, line: &[u8]) -> Result<u8, Fault> {
    let fields = legible(line).map_err(|number| Fault { number, offset: bad_byte(line) })?;
    let kind = known(&fields)?;
    sized(kind, &fields)?;
    let rank = ranked(kind, rank)?;
    room(text, kind, &fields)?;
    refers(text, kind, &fields)?;
    agrees(text, kind, &fields)?;
    add(text, kind, &fields);
    Ok(rank)
}

fn test(good: bool, number: u8) -> Result<(), u8> {
    if good {
        Ok(())
    } else {
        Err(number)
    }
}

/// Refusal 1. The bytes that the digits give.
fn legible(line: &[u8]) -> Result<Vec<u8>, u8> {
    let (last, digits) = line.split_last().ok_or(1)?;
    test(*last == b'\n', 1)?;
    test(!digits.is_empty(), 1)?;
    test(digits.len() % 2 == 0, 1)?;
    digits.chunks(2).map(|pair| Ok(16 * digit(pair[0])? + digit(pair[1])?)).collect()
}

/// The first byte that is no digit, else the line's length. A line feed is no part of its line.
fn bad_byte(line: &[u8]) -> usize {
    line.iter().position(|byte| digit(*byte).is_err()).unwrap_or(line.len())
}

pub(crate) fn digit(byte: u8) -> Result<u8, u8> {
    match byte {
        b'0'..=b'9' => Ok(byte - b'0'),
        b'A'..=b'F' => Ok(byte - b'A' + 10),
        _ => Err(1),
    }
}

/// Refusal 2.
fn known(fields: &[u8]) -> Result<u8, u8> {
    test((1..=7).contains(&fields[0]), 2)?;
    Ok(fields[0])
}

/// Refusal 3. The count is taken as it stands.
fn sized(kind: u8, fields: &[u8]) -> Result<(), u8> {
    let size = match kind {
        1 | 5 => 4 + usize::from(*fields.get(3).ok_or(3)?),
        4 => 2,
        _ => 3,
    };
    test(fields.len() == size, 3)
}

/// Refusal 4.
fn ranked(kind: u8, before: u8) -> Result<u8, u8> {
    let rank = match kind {
        1 => 1,
        2 | 3 => 2,
        4 | 5 => 3,
        _ => 4,
    };
    test(rank >= before, 4)?;
    Ok(rank)
}

/// Refusal 5.
fn room(text: &Text, kind: u8, fields: &[u8]) -> Result<(), u8> {
    match kind {
        1 => test(text.rows.len() < MOST_ROWS, 5)?,
        2 => test(text.equations.len() < MOST_EQUATIONS, 5)?,
        3 => test(text.differences.len() < MOST_DIFFERENCES, 5)?,
        4 | 5 => test(text.patterns.len() < MOST_PATTERNS, 5)?,
        _ => test(text.literals.len() < MOST_LITERALS, 5)?,
    }
    match kind {
        1 | 5 => test(usize::from(fields[3]) <= MOST_ARGUMENTS, 5),
        4 => test(usize::from(fields[1]) < MOST_VARIABLES, 5),
        _ => Ok(()),
    }
}

/// Refusal 6. Each field has two digits.
fn refers(text: &Text, kind: u8, fields: &[u8]) -> Result<(), Fault> {
    let first = match kind {
        1 | 5 => 4,
        4 => 2,
        _ => 1,
    };
    let there = match kind {
        1 | 2 | 3 => text.rows.len(),
        _ => text.patterns.len(),
    };
    for (field, row) in fields.iter().enumerate().skip(first) {
        let good = usize::from(*row) < there;
        test(good, 6).map_err(|number| Fault { number, offset: 2 * field })?;
    }
    Ok(())
}

/// Refusal 7.
fn agrees(text: &Text, kind: u8, fields: &[u8]) -> Result<(), u8> {
    if kind != 1 && kind != 5 {
        return Ok(());
    }
    let new = row_of(fields);
    let in_context = text.rows.iter();
    let in_clause = text.patterns.iter().filter_map(symbol_row);
    let mut same_symbol = in_context.chain(in_clause).filter(|row| row.symbol == new.symbol);
    test(same_symbol.all(|row| row.arguments.len() == new.arguments.len()), 7)
}

pub fn symbol_row(pattern: &Pattern) -> Option<&Row> {
    match pattern {
        Pattern::Variable(_) => None,
        Pattern::Symbol(row) => Some(row),
    }
}

fn row_of(fields: &[u8]) -> Row {
    let symbol = 256 * u16::from(fields[1]) + u16::from(fields[2]);
    Row { symbol, arguments: fields[4..].iter().map(|row| usize::from(*row)).collect() }
}

fn add(text: &mut Text, kind: u8, fields: &[u8]) {
    let pair = || (usize::from(fields[1]), usize::from(fields[2]));
    match kind {
        1 => text.rows.push(row_of(fields)),
        2 => text.equations.push(pair()),
        3 => text.differences.push(pair()),
        4 => text.patterns.push(Pattern::Variable(usize::from(fields[1]))),
        5 => text.patterns.push(Pattern::Symbol(row_of(fields))),
        _ => text.literals.push(Literal { equal: kind == 6, sides: pair() }),
    }
}
