//! The text in one pass: each line's digits become fields while the line is walked, and its tests follow at once.

#[derive(Clone, Copy, Debug, PartialEq)]
pub struct Refusal {
    pub number: u8,
    pub place: u16,
    pub offset: u16,
}

/// One that names no byte: 8 to 10.
pub fn refusal(number: u8, place: u16) -> Refusal {
    Refusal { number, place, offset: 0 }
}

/// Stands in the place of an argument that is not there, and for no class.
pub const NO_ROW: u16 = 0xFFF;

#[derive(Clone, Copy)]
pub struct Row {
    pub symbol: u16,
    pub count: u8,
    pub arguments: [u16; 4],
}

/// Stands in the place of a variable where a pattern row has a symbol.
pub const NO_VARIABLE: u8 = 255;

#[derive(Clone, Copy)]
pub struct Pattern {
    pub variable: u8,
    pub symbol: u16,
    pub count: u8,
    pub arguments: [u8; 4],
}

impl Pattern {
    pub fn arguments(&self) -> impl Iterator<Item = usize> + '_ {
        self.arguments[..self.count as usize].iter().map(|row| *row as usize)
    }
}

#[derive(Clone, Copy)]
pub struct Literal {
    pub equal: bool,
    pub left: u8,
    pub right: u8,
}

pub struct Text {
    pub rows: Vec<Row>,
    pub equations: Vec<(u16, u16)>,
    pub differences: Vec<(u16, u16)>,
    pub patterns: Vec<Pattern>,
    pub literals: Vec<Literal>,
    pub variables: usize,
    /// Where the lines of the context rows end.
    pub rows_end: usize,
}

const NO_DIGIT: u8 = 255;
const DIGITS: [u8; 256] = digit_table();

const fn digit_table() -> [u8; 256] {
    let mut table = [NO_DIGIT; 256];
    let mut value = 0;
    while value < 16 {
        table[b"0123456789ABCDEF"[value] as usize] = value as u8;
        value += 1;
    }
    table
}

/// The count of each symbol that was used, in a table that is never full.
struct Counts {
    places: [u32; 1024],
}

impl Counts {
    /// Whether the symbol has this count now.
    #[inline(always)]
    fn agree(&mut self, symbol: u16, count: u8) -> bool {
        let entry = 1 << 31 | u32::from(symbol) << 8 | u32::from(count);
        let mut place = u32::from(symbol).wrapping_mul(0x9E37_79B1) as usize >> 22;
        while self.places[place] != 0 {
            if self.places[place] >> 8 == entry >> 8 {
                return self.places[place] == entry;
            }
            place = (place + 1) & 1023;
        }
        self.places[place] = entry;
        true
    }
}

/// The first fields of a line, how many it has, and where the next line begins.
struct Line {
    fields: [u8; 16],
    size: usize,
    next: usize,
}

pub fn read(bytes: &[u8]) -> Result<Text, Refusal> {
    let mut text = Text {
        rows: Vec::with_capacity(256),
        equations: Vec::with_capacity(256),
        differences: Vec::with_capacity(256),
        patterns: Vec::with_capacity(64),
        literals: Vec::with_capacity(16),
        variables: 0,
        rows_end: 0,
    };
    let mut counts = Counts { places: [0; 1024] };
    let (mut at, mut place, mut rank) = (0, 0, 0);
    let mut line = Line { fields: [0; 16], size: 0, next: 0 };
    while at < bytes.len() {
        place += 1;
        walk(bytes, at, &mut line).and_then(|()| take(&mut text, &mut counts, &line, &mut rank)).map_err(|number| Refusal {
            number,
            place,
            offset: offset(number, &bytes[at..], &line.fields, &text),
        })?;
        at = line.next;
        if rank == 1 {
            text.rows_end = at;
        }
    }
    Ok(text)
}

/// The byte that a refusal of the line names, looked for only where a line is refused.
fn offset(number: u8, rest: &[u8], fields: &[u8; 16], text: &Text) -> u16 {
    let bad = match number {
        1 => rest.iter().position(|byte| DIGITS[*byte as usize] == NO_DIGIT).unwrap_or(rest.len()),
        6 => 2 * bad_field(fields, text),
        _ => 0,
    };
    bad.min(65_535) as u16
}

fn bad_field(fields: &[u8; 16], text: &Text) -> usize {
    let first = if matches!(fields[0], 1 | 5) { 4 } else { 1 };
    let there = if fields[0] < 4 { text.rows.len() } else { text.patterns.len() };
    (first..16).find(|field| fields[*field] as usize >= there).unwrap_or(0)
}

/// Refusal 1: digits in pairs up to a line feed, at least one pair.
#[inline(always)]
fn walk(bytes: &[u8], start: usize, line: &mut Line) -> Result<(), u8> {
    let (mut at, mut size) = (start, 0);
    loop {
        let high = match bytes.get(at) {
            Some(b'\n') if size > 0 => break,
            Some(byte) => DIGITS[*byte as usize],
            None => return Err(1),
        };
        let low = bytes.get(at + 1).map_or(NO_DIGIT, |byte| DIGITS[*byte as usize]);
        if high | low == NO_DIGIT {
            return Err(1);
        }
        if size < 16 {
            line.fields[size] = high << 4 | low;
        }
        size += 1;
        at += 2;
    }
    line.size = size;
    line.next = at + 1;
    Ok(())
}

fn test(good: bool, number: u8) -> Result<(), u8> {
    if good {
        Ok(())
    } else {
        Err(number)
    }
}

/// Refusals 2 to 7, and what the line says.
#[inline(always)]
fn take(text: &mut Text, counts: &mut Counts, line: &Line, rank: &mut u8) -> Result<(), u8> {
    let fields = &line.fields;
    let (own_rank, size) = match fields[0] {
        1 => (1, sized(line)?),
        2 | 3 => (2, 3),
        4 => (3, 2),
        5 => (3, sized(line)?),
        6 | 7 => (4, 3),
        _ => return Err(2),
    };
    test(line.size == size, 3)?;
    test(own_rank >= *rank, 4)?;
    *rank = own_rank;
    let pair = (u16::from(fields[1]), u16::from(fields[2]));
    match fields[0] {
        1 => take_row(text, counts, fields),
        2 => take_pair(text.rows.len(), &mut text.equations, pair),
        3 => take_pair(text.rows.len(), &mut text.differences, pair),
        4 => take_variable(text, fields[1]),
        5 => take_pattern(text, counts, fields),
        _ => take_literal(text, fields),
    }
}

fn sized(line: &Line) -> Result<usize, u8> {
    test(line.size >= 4, 3)?;
    Ok(4 + line.fields[3] as usize)
}

#[inline(always)]
fn take_row(text: &mut Text, counts: &mut Counts, fields: &[u8; 16]) -> Result<(), u8> {
    test(text.rows.len() < 255 && fields[3] <= 4, 5)?;
    let mut row = Row { symbol: symbol(fields), count: fields[3], arguments: [NO_ROW; 4] };
    for place in 0..row.count as usize {
        row.arguments[place] = u16::from(fields[4 + place]);
        test((row.arguments[place] as usize) < text.rows.len(), 6)?;
    }
    test(counts.agree(row.symbol, row.count), 7)?;
    text.rows.push(row);
    Ok(())
}

fn symbol(fields: &[u8; 16]) -> u16 {
    u16::from(fields[1]) << 8 | u16::from(fields[2])
}

#[inline(always)]
fn take_pair(rows: usize, pairs: &mut Vec<(u16, u16)>, pair: (u16, u16)) -> Result<(), u8> {
    test(pairs.len() < 255, 5)?;
    test((pair.0.max(pair.1) as usize) < rows, 6)?;
    pairs.push(pair);
    Ok(())
}

fn take_variable(text: &mut Text, variable: u8) -> Result<(), u8> {
    test(text.patterns.len() < 64 && variable < 4, 5)?;
    text.variables = text.variables.max(variable as usize + 1);
    text.patterns.push(Pattern { variable, symbol: 0, count: 0, arguments: [0; 4] });
    Ok(())
}

fn take_pattern(text: &mut Text, counts: &mut Counts, fields: &[u8; 16]) -> Result<(), u8> {
    test(text.patterns.len() < 64 && fields[3] <= 4, 5)?;
    let mut pattern = Pattern { variable: NO_VARIABLE, symbol: symbol(fields), count: fields[3], arguments: [0; 4] };
    for place in 0..pattern.count as usize {
        pattern.arguments[place] = fields[4 + place];
        test((pattern.arguments[place] as usize) < text.patterns.len(), 6)?;
    }
    test(counts.agree(pattern.symbol, pattern.count), 7)?;
    text.patterns.push(pattern);
    Ok(())
}

fn take_literal(text: &mut Text, fields: &[u8; 16]) -> Result<(), u8> {
    test(text.literals.len() < 16, 5)?;
    let (left, right) = (fields[1], fields[2]);
    test((left.max(right) as usize) < text.patterns.len(), 6)?;
    text.literals.push(Literal { equal: fields[0] == 6, left, right });
    Ok(())
}
