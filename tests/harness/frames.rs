//! An input of `verify` that is being made: a text, its 08 line, and frames as lines of digits with fields that can be changed.

use crate::random::Random;
use reference::breach::variables;
use reference::grounds::Step;
use reference::normal::line;
use reference::text::Text;
use reference::writing::{conclusion_line, grounds, step_line};

#[derive(Clone)]
pub struct Input {
    pub text: Vec<u8>,
    pub opening: Vec<u8>,
    pub lines: Vec<Vec<u8>>,
}

/// Bytes of a frame, counted from 0.
#[derive(Clone, Copy)]
pub struct Field {
    at: usize,
    bytes: usize,
}

const fn field(at: usize, bytes: usize) -> Field {
    Field { at, bytes }
}

pub const OWNER: Field = field(1, 1);
pub const KIND: Field = field(2, 1);
pub const MARKS: [Field; 2] = [field(3, 1), field(6, 1)];
pub const ROWS: [Field; 2] = [field(4, 2), field(7, 2)];
pub const NAMES: [Field; 2] = [field(3, 3), field(6, 3)];
pub const NUMBERS: [Field; 4] = [field(9, 4), field(13, 4), field(17, 4), field(21, 4)];
pub const LITERAL: Field = field(1, 1);
pub const CITED: [Field; 2] = [field(2, 4), field(6, 4)];
pub const DIFFERENCE: Field = field(10, 2);
pub const ORIENTATION: Field = field(12, 1);

impl Field {
    pub fn of(self, line: &[u8]) -> usize {
        let digits = std::str::from_utf8(self.digits(line)).unwrap_or("");
        usize::from_str_radix(digits, 16).unwrap_or(0)
    }

    fn digits(self, line: &[u8]) -> &[u8] {
        &line[2 * self.at..2 * (self.at + self.bytes)]
    }

    /// The value's low bytes.
    pub fn set(self, line: &mut [u8], value: usize) {
        let value = value % (1 << (8 * self.bytes));
        let digits = format!("{:0width$X}", value, width = 2 * self.bytes);
        line[2 * self.at..2 * (self.at + self.bytes)].copy_from_slice(digits.as_bytes());
    }
}

pub fn is_step(line: &[u8]) -> bool {
    line.starts_with(b"B0") && line.len() == 51
}

pub fn is_conclusion(line: &[u8]) -> bool {
    line.starts_with(b"B1") && line.len() == 27
}

/// A step between rows or instances that are there; half of the time between a term and itself.
pub fn any_step(random: &mut Random, text: &Text) -> Vec<u8> {
    let mut frame = step_line(&Step::default());
    KIND.set(&mut frame, random.within(1, 6));
    if random.one_in(4) {
        OWNER.set(&mut frame, random.within(1, text.literals.len() + 1));
    }
    for (mark, row) in MARKS.into_iter().zip(ROWS) {
        let instance = random.below(2);
        let rows = if instance == 0 { text.rows.len() } else { text.patterns.len() };
        mark.set(&mut frame, instance);
        row.set(&mut frame, random.below(rows.max(1)));
    }
    if random.one_in(2) {
        give_left_name(&mut frame);
    }
    for number in NUMBERS {
        number.set(&mut frame, random.below(4));
    }
    frame
}

/// The right term becomes the left one.
pub fn give_left_name(frame: &mut [u8]) {
    let name = NAMES[0].of(frame);
    NAMES[1].set(frame, name);
}

impl Input {
    pub fn bytes(&self) -> Vec<u8> {
        [&self.text[..], &self.opening[..], &self.lines.concat()[..]].concat()
    }

    /// A text with grounds that hold for an assignment, as far as its literals do.
    pub fn written(random: &mut Random, bytes: &[u8], text: &Text, assignment: &[usize]) -> Input {
        let (steps, conclusions) = grounds(text, assignment, &mut |ways| random.below(ways));
        let steps = steps.iter().map(step_line);
        let lines = steps.chain(conclusions.iter().map(conclusion_line)).collect();
        Input { text: bytes.to_vec(), opening: opening(assignment), lines }
    }

    /// A text with what a program printed for it: the first line is the 08 line.
    pub fn printed(bytes: &[u8], printed: &[u8]) -> Input {
        let mut lines = printed.split_inclusive(|byte| *byte == b'\n').map(<[u8]>::to_vec);
        let opening = lines.next().unwrap_or_default();
        Input { text: bytes.to_vec(), opening, lines: lines.collect() }
    }

    /// A text with rows for its variables, most of them there, and steps of which few follow.
    pub fn guessed(random: &mut Random, bytes: &[u8], text: &Text) -> Input {
        let rows = text.rows.len() + random.below(2);
        let assignment: Vec<usize> = (0..variables(&text.patterns)).map(|_| random.below(rows.max(1))).collect();
        let lines = (0..random.below(4)).map(|_| any_step(random, text)).collect();
        Input { text: bytes.to_vec(), opening: opening(&assignment), lines }
    }

    /// The places of the lines of a sort.
    pub fn places(&self, sort: fn(&[u8]) -> bool) -> Vec<usize> {
        (0..self.lines.len()).filter(|place| sort(&self.lines[*place])).collect()
    }

    /// Puts a step behind the others, so that no number changes, and gives its own.
    pub fn add_step(&mut self, frame: Vec<u8>) -> usize {
        let place = self.lines.iter().rposition(|line| !is_conclusion(line)).map_or(0, |last| last + 1);
        self.lines.insert(place, frame);
        self.number_of(place)
    }

    /// The frame of a step by its number.
    pub fn step(&self, number: usize) -> Option<&Vec<u8>> {
        let mut steps = self.lines.iter().filter(|line| !is_conclusion(line));
        steps.nth(number.checked_sub(1)?).filter(|line| is_step(line))
    }

    /// The number of a step line; those that are no conclusions are counted.
    pub fn number_of(&self, place: usize) -> usize {
        1 + self.lines[..place].iter().filter(|line| !is_conclusion(line)).count()
    }
}

fn opening(assignment: &[usize]) -> Vec<u8> {
    let rows: Vec<u8> = assignment.iter().map(|row| *row as u8).collect();
    line(&[&[8, rows.len() as u8], &rows[..]].concat())
}
