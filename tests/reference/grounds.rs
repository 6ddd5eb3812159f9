//! A checker of grounds, written from docs/GROUNDS.md alone. Each term is made once, so that two names mean the same term exactly
//! when they have the same number.

use std::collections::HashMap;

use crate::breach::variables;
use crate::closing::{close, first_clash};
use crate::normal::line;
use crate::text::{digit, read, refusal, Pattern, Refusal, Row, Text};
use crate::{refusal_line, INPUT_LIMIT};

/// A term by its mark and its row.
#[derive(Clone, Copy, Debug, Default, PartialEq)]
pub struct Name {
    pub mark: u8,
    pub row: usize,
}

#[derive(Clone, Debug, Default, PartialEq)]
pub struct Step {
    pub owner: u8,
    pub kind: u8,
    pub left: Name,
    pub right: Name,
    pub numbers: [usize; 4],
}

#[derive(Clone, Debug, Default, PartialEq)]
pub struct Conclusion {
    pub literal: usize,
    pub first: usize,
    pub second: usize,
    pub difference: usize,
    pub orientation: u8,
}

/// Variables are counted from 0, steps and literals from 1.
#[derive(Clone, Debug, PartialEq)]
pub enum Verdict {
    Accepted,
    Unassigned(usize),
    Bad(usize),
    Unconcluded(usize),
}

/// The finder's refusals come before anything about the grounds.
pub fn judge(bytes: &[u8], places: [usize; 4], steps: &[Step], conclusions: &[Conclusion]) -> Result<Verdict, Refusal> {
    let text = read(bytes)?;
    if text.literals.is_empty() {
        return Err(refusal(8, 0));
    }
    let class = close(&text.rows, &text.equations);
    if let Some(ordinal) = first_clash(&class, &text.differences) {
        return Err(refusal(9, ordinal));
    }
    Ok(verdict(&text, places, steps, conclusions))
}

/// The first variable without a row, else the first bad step, else the first literal that is not concluded.
fn verdict(text: &Text, places: [usize; 4], steps: &[Step], conclusions: &[Conclusion]) -> Verdict {
    if let Some(variable) = (0..variables(&text.patterns)).find(|variable| places[*variable] >= text.rows.len()) {
        return Verdict::Unassigned(variable);
    }
    let terms = Terms::new(text, places);
    if let Some(index) = (0..steps.len()).find(|index| !terms.follows(&steps[..*index], &steps[*index])) {
        return Verdict::Bad(index + 1);
    }
    match (0..text.literals.len()).find(|index| !terms.concluded(steps, conclusions, *index)) {
        Some(index) => Verdict::Unconcluded(index + 1),
        None => Verdict::Accepted,
    }
}

/// The terms of the rows and of the pattern rows' instances, each by its number, and the symbol over arguments that a number is.
struct Terms<'a> {
    text: &'a Text,
    rows: Vec<usize>,
    instances: Vec<usize>,
    made: Vec<Row>,
}

impl<'a> Terms<'a> {
    fn new(text: &'a Text, places: [usize; 4]) -> Terms<'a> {
        let mut numbers: HashMap<(u16, Vec<usize>), usize> = HashMap::new();
        let mut made = Vec::new();
        let mut number = |symbol: u16, arguments: Vec<usize>| {
            *numbers.entry((symbol, arguments.clone())).or_insert_with(|| {
                made.push(Row { symbol, arguments });
                made.len() - 1
            })
        };
        let mut rows: Vec<usize> = Vec::new();
        for row in &text.rows {
            rows.push(number(row.symbol, row.arguments.iter().map(|argument| rows[*argument]).collect()));
        }
        let mut instances: Vec<usize> = Vec::new();
        for pattern in &text.patterns {
            instances.push(match pattern {
                Pattern::Variable(variable) => rows[places[*variable]],
                Pattern::Symbol(row) => number(row.symbol, row.arguments.iter().map(|argument| instances[*argument]).collect()),
            });
        }
        Terms { text, rows, instances, made }
    }

    fn named(&self, name: Name) -> Option<usize> {
        match name.mark {
            0 => self.rows.get(name.row).copied(),
            1 => self.instances.get(name.row).copied(),
            _ => None,
        }
    }

    /// Both terms of a step.
    fn sides(&self, step: &Step) -> Option<(usize, usize)> {
        Some((self.named(step.left)?, self.named(step.right)?))
    }

    /// The sides of step `number`, counted from 1, for an owner to cite: a shared step, or one of its own.
    fn cited(&self, steps: &[Step], number: usize, owner: u8) -> Option<(usize, usize)> {
        let step = steps.get(number.checked_sub(1)?)?;
        let open = step.owner == 0 || step.owner == owner;
        self.sides(step).filter(|_| open)
    }

    /// The instances of a literal, counted from 1, if it is an unequal one.
    fn unequal(&self, number: u8) -> Option<(usize, usize)> {
        let literal = self.text.literals.get(usize::from(number).checked_sub(1)?)?;
        (!literal.equal).then(|| (self.instances[literal.sides.0], self.instances[literal.sides.1]))
    }

    /// The terms of a stated pair, counted from 1.
    fn stated(&self, pairs: &[(usize, usize)], number: usize) -> Option<(usize, usize)> {
        let (left, right) = pairs.get(number.checked_sub(1)?)?;
        Some((self.rows[*left], self.rows[*right]))
    }

    /// The owner is 0, or the number of an unequal literal.
    fn follows(&self, earlier: &[Step], step: &Step) -> bool {
        let Some((left, right)) = self.sides(step) else { return false };
        let [first, second, ..] = step.numbers;
        let cited = |number: usize| self.cited(earlier, number, step.owner);
        let reason = match step.kind {
            1 => self.stated(&self.text.equations, first) == Some((left, right)),
            2 => left == right,
            3 => cited(first) == Some((right, left)),
            4 => match (cited(first), cited(second)) {
                (Some((from, middle)), Some((other, to))) => from == left && middle == other && to == right,
                _ => false,
            },
            5 => self.congruent(earlier, step, left, right),
            6 => self.unequal(step.owner) == Some((left, right)),
            _ => false,
        };
        (step.owner == 0 || self.unequal(step.owner).is_some()) && reason
    }

    fn congruent(&self, earlier: &[Step], step: &Step, left: usize, right: usize) -> bool {
        let (left, right) = (&self.made[left], &self.made[right]);
        let pairs = left.arguments.iter().zip(&right.arguments);
        left.symbol == right.symbol
            && left.arguments.len() == right.arguments.len()
            && pairs.zip(step.numbers).all(|((a, b), number)| self.cited(earlier, number, step.owner) == Some((*a, *b)))
    }

    /// The first conclusion for a literal counts. An equal literal cites a shared step, an unequal one a shared step or one of its own.
    fn concluded(&self, steps: &[Step], conclusions: &[Conclusion], index: usize) -> bool {
        let literal = &self.text.literals[index];
        let (left, right) = (self.instances[literal.sides.0], self.instances[literal.sides.1]);
        let Some(given) = conclusions.iter().find(|conclusion| conclusion.literal == index + 1) else { return false };
        if literal.equal {
            return self.cited(steps, given.first, 0) == Some((left, right));
        }
        let difference = self.stated(&self.text.differences, given.difference);
        difference.is_some() && self.cited(steps, given.first, index as u8 + 1) == difference
    }
}

/// The most steps that the program takes.
pub const STEP_LIMIT: usize = 278_528;

/// An input of the program in its parts.
pub struct Parts {
    pub text: Vec<u8>,
    pub places: [usize; 4],
    pub steps: Vec<Step>,
    pub conclusions: Vec<Conclusion>,
}

/// The text ends before the first line that begins with 08. A line after that is a conclusion or a step; a malformed one is a step
/// of no kind.
pub fn parts_of(input: &[u8]) -> Parts {
    let lines: Vec<&[u8]> = input.split_inclusive(|byte| *byte == b'\n').collect();
    let opening = lines.iter().position(|line| line.starts_with(b"08")).unwrap_or(lines.len());
    let places = lines.get(opening).map_or([255; 4], |line| places_in(line));
    let mut parts = Parts { text: lines[..opening].concat(), places, steps: Vec::new(), conclusions: Vec::new() };
    for line in lines.iter().skip(opening + 1) {
        match conclusion_in(line) {
            Some(conclusion) => parts.conclusions.push(conclusion),
            None => parts.steps.push(step_in(line).unwrap_or_default()),
        }
    }
    parts
}

/// What the program prints.
pub fn verify_prints(input: &[u8]) -> Vec<u8> {
    let parts = parts_of(input);
    if parts.text.len() > INPUT_LIMIT || parts.steps.len() > STEP_LIMIT {
        return refusal_line(&refusal(11, 0));
    }
    match judge(&parts.text, parts.places, &parts.steps, &parts.conclusions) {
        Err(refused) => refusal_line(&refused),
        Ok(verdict) => line(&verdict_bytes(&verdict)),
    }
}

fn verdict_bytes(verdict: &Verdict) -> Vec<u8> {
    match verdict {
        Verdict::Accepted => vec![0x0B, 0],
        Verdict::Unassigned(variable) => vec![0x0B, 1, *variable as u8],
        Verdict::Bad(step) => [&[0x0B, 2][..], &(*step as u32).to_be_bytes()].concat(),
        Verdict::Unconcluded(literal) => vec![0x0B, 3, *literal as u8],
    }
}

/// The bytes of a line that is digits and a feed.
fn bytes_in(line: &[u8]) -> Option<Vec<u8>> {
    let (last, digits) = line.split_last()?;
    if *last != b'\n' || digits.len() % 2 != 0 {
        return None;
    }
    digits.chunks(2).map(|pair| Some(16 * digit(pair[0]).ok()? + digit(pair[1]).ok()?)).collect()
}

fn places_in(line: &[u8]) -> [usize; 4] {
    let mut places = [255; 4];
    let Some(bytes) = bytes_in(line) else { return places };
    let Some(count) = bytes.get(1) else { return places };
    let rows = &bytes[2..];
    if *count <= 4 && rows.len() == usize::from(*count) {
        for (place, row) in places.iter_mut().zip(rows) {
            *place = usize::from(*row);
        }
    }
    places
}

fn number(bytes: &[u8]) -> usize {
    bytes.iter().fold(0, |number, byte| number * 256 + usize::from(*byte))
}

fn name_in(bytes: &[u8]) -> Name {
    Name { mark: bytes[0], row: number(&bytes[1..3]) }
}

pub fn step_in(line: &[u8]) -> Option<Step> {
    let bytes = bytes_in(line)?;
    if bytes.len() != 25 || bytes[0] != 0xB0 {
        return None;
    }
    let numbers = [9, 13, 17, 21].map(|at| number(&bytes[at..at + 4]));
    Some(Step { owner: bytes[1], kind: bytes[2], left: name_in(&bytes[3..6]), right: name_in(&bytes[6..9]), numbers })
}

pub fn conclusion_in(line: &[u8]) -> Option<Conclusion> {
    let bytes = bytes_in(line)?;
    if bytes.len() != 13 || bytes[0] != 0xB1 {
        return None;
    }
    Some(Conclusion {
        literal: usize::from(bytes[1]),
        first: number(&bytes[2..6]),
        second: number(&bytes[6..10]),
        difference: number(&bytes[10..12]),
        orientation: bytes[12],
    })
}
