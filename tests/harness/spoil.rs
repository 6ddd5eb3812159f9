//! One change in an input of `verify`. Most of them make grounds bad, some leave them good, and which it is the reference says.

use crate::damage::spoilt;
use crate::frames::{any_step, give_left_name, is_conclusion, is_step, Field, Input};
use crate::frames::{CITED, DIFFERENCE, KIND, LITERAL, MARKS, NAMES, NUMBERS, ORIENTATION, OWNER, ROWS};
use crate::random::Random;
use reference::grounds::{Name, Step};
use reference::text::{read, Text};
use reference::writing::step_line;
use reference::INPUT_LIMIT;

type Change = fn(&mut Random, &mut Input);

/// Changes of the frames.
const IN_FRAMES: [Change; 31] = [
    byte_changed,
    line_dropped,
    lines_exchanged,
    line_doubled,
    line_moved,
    off_by_one,
    off_by_one,
    difference_turned,
    owner_named,
    owner_named,
    owner_exchanged,
    owned_copy,
    added_step,
    added_step,
    conclusions_exchanged,
    conclusions_exchanged,
    kind_changed,
    mark_changed,
    row_changed,
    sides_exchanged,
    cited_otherwise,
    cited_otherwise,
    cited_near,
    cited_near,
    cites_itself,
    unread_filled,
    second_conclusion,
    conclusion_of_none,
    no_frame,
    last_feed_dropped,
    step_more,
];

/// Changes of the text and of its 08 line.
const BEFORE_FRAMES: [Change; 5] = [row_of_variable, row_of_variable, count_changed, opening_malformed, text_spoilt];

/// One change, in the frames or, once in five, before them.
pub fn spoil(random: &mut Random, input: &mut Input) {
    let change = if random.one_in(5) { *random.pick(&BEFORE_FRAMES) } else { *random.pick(&IN_FRAMES) };
    change(random, input);
}

/// One change in the frames.
pub fn spoil_frames(random: &mut Random, input: &mut Input) {
    random.pick(&IN_FRAMES)(random, input);
}

fn text_of(input: &Input) -> Text {
    read(&input.text).unwrap_or_default()
}

/// Some line of a sort, if there is one.
fn some_line<'a>(random: &mut Random, input: &'a mut Input, sort: fn(&[u8]) -> bool) -> Option<&'a mut Vec<u8>> {
    let place = some_place(random, input, sort)?;
    Some(&mut input.lines[place])
}

fn some_place(random: &mut Random, input: &Input, sort: fn(&[u8]) -> bool) -> Option<usize> {
    let places = input.places(sort);
    (!places.is_empty()).then(|| *random.pick(&places))
}

/// A place between lines, or behind the last.
fn some_gap(random: &mut Random, input: &Input) -> usize {
    random.within(0, input.lines.len())
}

fn byte_changed(random: &mut Random, input: &mut Input) {
    if let Some(line) = some_line(random, input, |line| !line.is_empty()) {
        let place = random.below(line.len());
        line[place] = *random.pick(b"00001123456789ABCDEFG/:@`abf \r\n\0");
    }
}

fn line_dropped(random: &mut Random, input: &mut Input) {
    if let Some(place) = some_place(random, input, |_| true) {
        input.lines.remove(place);
    }
}

fn lines_exchanged(random: &mut Random, input: &mut Input) {
    if let (Some(place), Some(other)) = (some_place(random, input, |_| true), some_place(random, input, |_| true)) {
        input.lines.swap(place, other);
    }
}

fn line_doubled(random: &mut Random, input: &mut Input) {
    if let Some(place) = some_place(random, input, |_| true) {
        let copy = input.lines[place].clone();
        let gap = some_gap(random, input);
        input.lines.insert(gap, copy);
    }
}

/// A conclusion among or before the steps that it cites.
fn line_moved(random: &mut Random, input: &mut Input) {
    if let Some(place) = some_place(random, input, is_conclusion) {
        let moved = input.lines.remove(place);
        let gap = some_gap(random, input);
        input.lines.insert(gap, moved);
    }
}

fn add(line: &mut [u8], field: Field, more: usize) {
    field.set(line, field.of(line).wrapping_add(more));
}

fn off_by_one(random: &mut Random, input: &mut Input) {
    let more = *random.pick(&[1, usize::MAX]);
    if let Some(line) = some_line(random, input, |line| is_step(line) || is_conclusion(line)) {
        let field = if is_step(line) {
            *random.pick(&[NUMBERS[0], NUMBERS[0], NUMBERS[1], NUMBERS[2], NUMBERS[3], ROWS[0], ROWS[1]])
        } else {
            *random.pick(&[LITERAL, CITED[0], CITED[1], DIFFERENCE, ORIENTATION])
        };
        add(line, field, more);
    }
}

/// The numbers of the literals of a sort.
fn literals(text: &Text, equal: bool) -> Vec<usize> {
    (1..=text.literals.len()).filter(|number| text.literals[number - 1].equal == equal).collect()
}

/// An owner: mostly 0 or the number of an unequal literal, else of an equal one or of none.
fn some_owner(random: &mut Random, text: &Text) -> usize {
    let (equal, unequal) = (literals(text, true), literals(text, false));
    match random.below(8) {
        0 | 1 => 0,
        2 | 3 | 4 if !unequal.is_empty() => *random.pick(&unequal),
        5 | 6 if !equal.is_empty() => *random.pick(&equal),
        _ => *random.pick(&[1, text.literals.len() + 1, 16, 17, 0x80, 0xFF]),
    }
}

/// A step behind the others that turns round the one which a conclusion cites, for the conclusion to cite instead.
fn difference_turned(random: &mut Random, input: &mut Input) {
    let Some(place) = some_place(random, input, is_conclusion) else { return };
    let (literal, cited) = (LITERAL.of(&input.lines[place]), CITED[0].of(&input.lines[place]));
    let Some(mut turned) = input.step(cited).cloned() else { return };
    let [left, right] = NAMES.map(|name| name.of(&turned));
    NAMES[0].set(&mut turned, right);
    NAMES[1].set(&mut turned, left);
    KIND.set(&mut turned, 3);
    NUMBERS[0].set(&mut turned, cited);
    NUMBERS[1..].iter().for_each(|number| number.set(&mut turned, 0));
    cite_new_step(input, literal, turned);
}

/// Puts a step behind the others and has a literal's conclusions cite it.
fn cite_new_step(input: &mut Input, literal: usize, frame: Vec<u8>) {
    let number = input.add_step(frame);
    let of_literal = |line: &&mut Vec<u8>| is_conclusion(line) && LITERAL.of(line) == literal;
    input.lines.iter_mut().filter(of_literal).for_each(|line| CITED[0].set(line, number));
}

fn owner_named(random: &mut Random, input: &mut Input) {
    let owner = some_owner(random, &text_of(input));
    if let Some(line) = some_line(random, input, is_step) {
        OWNER.set(line, owner);
    }
}

/// Every step of one owner given to another.
fn owner_exchanged(random: &mut Random, input: &mut Input) {
    let to = some_owner(random, &text_of(input));
    let Some(line) = some_line(random, input, |line| is_step(line) && OWNER.of(line) != 0) else { return };
    let from = OWNER.of(line);
    let of_owner = |line: &&mut Vec<u8>| is_step(line) && OWNER.of(line) == from;
    input.lines.iter_mut().filter(of_owner).for_each(|line| OWNER.set(line, to));
}

/// A conclusion's step again under another owner, for the conclusion to cite instead.
fn owned_copy(random: &mut Random, input: &mut Input) {
    let owner = some_owner(random, &text_of(input));
    let Some(place) = some_place(random, input, is_conclusion) else { return };
    let (literal, cited) = (LITERAL.of(&input.lines[place]), CITED[0].of(&input.lines[place]));
    let Some(mut copy) = input.step(cited).cloned() else { return };
    OWNER.set(&mut copy, owner);
    cite_new_step(input, literal, copy);
}

/// A step of kind 06 between the instances of some literal, in its order or turned, under its own number or another.
fn added_step(random: &mut Random, input: &mut Input) {
    let text = text_of(input);
    if text.literals.is_empty() {
        return;
    }
    let number = random.within(1, text.literals.len());
    let (left, right) = text.literals[number - 1].sides;
    let owner = if random.one_in(2) { number } else { some_owner(random, &text) };
    let instance = |row: usize| Name { mark: 1, row };
    let mut step = Step { owner: owner as u8, kind: 6, left: instance(left), right: instance(right), numbers: [0; 4] };
    if random.one_in(4) {
        std::mem::swap(&mut step.left, &mut step.right);
    }
    input.add_step(step_line(&step));
}

/// Two conclusions change their literals.
fn conclusions_exchanged(random: &mut Random, input: &mut Input) {
    let (Some(place), Some(other)) = (some_place(random, input, is_conclusion), some_place(random, input, is_conclusion)) else {
        return;
    };
    let (one, two) = (LITERAL.of(&input.lines[place]), LITERAL.of(&input.lines[other]));
    LITERAL.set(&mut input.lines[place], two);
    LITERAL.set(&mut input.lines[other], one);
}

fn kind_changed(random: &mut Random, input: &mut Input) {
    let kind = *random.pick(&[0, 1, 2, 3, 4, 5, 6, 7, 0x81, 0xFF]);
    if let Some(line) = some_line(random, input, is_step) {
        KIND.set(line, kind);
    }
}

fn mark_changed(random: &mut Random, input: &mut Input) {
    let mark = *random.pick(&[0, 0, 1, 1, 2, 3, 0x80, 0xFF]);
    if let Some(line) = some_line(random, input, is_step) {
        random.pick(&MARKS).set(line, mark);
    }
}

/// Another row, the first that is not there, or one that has its low byte.
fn row_changed(random: &mut Random, input: &mut Input) {
    let text = text_of(input);
    if let Some(line) = some_line(random, input, is_step) {
        let side = random.below(2);
        let rows = if MARKS[side].of(line) == 0 { text.rows.len() } else { text.patterns.len() };
        let row = match random.below(4) {
            0 => rows,
            1 => ROWS[side].of(line) + 256,
            2 => 0xFFFF,
            _ => random.below(rows.max(1)),
        };
        ROWS[side].set(line, row);
    }
}

fn sides_exchanged(random: &mut Random, input: &mut Input) {
    if let Some(line) = some_line(random, input, is_step) {
        let [left, right] = NAMES.map(|name| name.of(line));
        NAMES[0].set(line, right);
        NAMES[1].set(line, left);
    }
}

/// The fields in which a frame cites steps.
fn citing(line: &[u8]) -> &'static [Field] {
    match KIND.of(line) {
        _ if is_conclusion(line) => &CITED[..1],
        3 => &NUMBERS[..1],
        4 => &NUMBERS[..2],
        5 => &NUMBERS,
        _ => &[],
    }
}

fn cites(line: &[u8]) -> bool {
    (is_step(line) || is_conclusion(line)) && citing(line).iter().any(|field| field.of(line) != 0)
}

/// A cited number changed for 0, its own, a later one, one that is not there, or one that only its high bytes tell apart.
fn cited_otherwise(random: &mut Random, input: &mut Input) {
    if let Some(place) = some_place(random, input, cites) {
        let (own, last) = (input.number_of(place), input.number_of(input.lines.len()));
        let line = &mut input.lines[place];
        let field = *random.pick(citing(line));
        let number = match random.below(7) {
            0 => 0,
            1 => own,
            2 => own + 1,
            3 => random.within(own, last),
            4 => last,
            5 => field.of(line) + (1 << (8 * random.within(1, 3))),
            _ => 0xFFFF_FFFF,
        };
        field.set(line, number);
    }
}

/// A cited number changed for that of a step that has a side with the cited one in common.
fn cited_near(random: &mut Random, input: &mut Input) {
    let Some(place) = some_place(random, input, cites) else { return };
    let steps: Vec<&Vec<u8>> = input.lines.iter().filter(|line| !is_conclusion(line)).collect();
    let field = *random.pick(citing(&input.lines[place]));
    let cited = field.of(&input.lines[place]);
    let names = |number: usize| {
        steps.get(number.wrapping_sub(1)).filter(|line| is_step(line)).map(|line| NAMES.map(|name| name.of(line)))
    };
    let Some(sides) = names(cited) else { return };
    let shares = |other: [usize; 2]| other[0] == sides[0] || other[1] == sides[1];
    let near: Vec<usize> = (1..=steps.len()).filter(|number| *number != cited && names(*number).map_or(false, shares)).collect();
    if !near.is_empty() {
        let number = *random.pick(&near);
        field.set(&mut input.lines[place], number);
    }
}

/// A step that would follow if it could cite itself: a term's equality with itself turned round, or by way of itself and another.
fn cites_itself(random: &mut Random, input: &mut Input) {
    let text = text_of(input);
    let mut frame = any_step(random, &text);
    let gap = some_gap(random, input);
    let own = input.number_of(gap);
    give_left_name(&mut frame);
    KIND.set(&mut frame, random.within(3, 5));
    for number in NUMBERS {
        number.set(&mut frame, own);
    }
    input.lines.insert(gap, frame);
}

/// Numbers that the frame's kind does not read.
fn unread_filled(random: &mut Random, input: &mut Input) {
    let value = *random.pick(&[1, 2, 0xFFFF_FFFF, 0x0100_0000]);
    let text = text_of(input);
    let Some(line) = some_line(random, input, |line| is_step(line) || is_conclusion(line)) else { return };
    let read = match KIND.of(line) {
        _ if is_conclusion(line) => {
            let literal = text.literals.get(LITERAL.of(line).wrapping_sub(1));
            let unequal = literal.map_or(false, |literal| !literal.equal);
            let fields = [DIFFERENCE, CITED[1], ORIENTATION];
            random.pick(&fields[usize::from(unequal)..]).set(line, value);
            return;
        }
        1 | 3 => 1,
        2 | 6 => 0,
        4 => 2,
        _ => NUMBERS.iter().rposition(|number| number.of(line) != 0).map_or(0, |last| last + 1),
    };
    NUMBERS[read..].iter().for_each(|number| number.set(line, value));
}

/// A second conclusion for a literal, before or behind the first, with one field changed in the copy or in the other.
fn second_conclusion(random: &mut Random, input: &mut Input) {
    if let Some(place) = some_place(random, input, is_conclusion) {
        let mut copy = input.lines[place].clone();
        let more = random.within(1, 3);
        let field = *random.pick(&[CITED[0], CITED[0], CITED[1], DIFFERENCE, ORIENTATION]);
        add(&mut copy, field, more);
        input.lines.insert(place + random.below(2), copy);
    }
}

/// A conclusion for a literal that the text does not have.
fn conclusion_of_none(random: &mut Random, input: &mut Input) {
    let literals = text_of(input).literals.len();
    if let Some(place) = some_place(random, input, is_conclusion) {
        let mut other = input.lines[place].clone();
        LITERAL.set(&mut other, *random.pick(&[0, literals + 1, 17, 0xFF]));
        if random.one_in(3) {
            input.lines[place] = other;
        } else {
            input.lines.insert(place, other);
        }
    }
}

/// A line that is no frame, and so a bad step: empty, a second 08 line, a line of the text, a frame too short or too long.
fn no_frame(random: &mut Random, input: &mut Input) {
    let gap = some_gap(random, input);
    let near = input.lines.get(gap).cloned().unwrap_or_else(|| b"B1\n".to_vec());
    let mut line = match random.below(9) {
        0 | 1 => Vec::new(),
        2 => input.opening.clone(),
        3 => b"060000\n".to_vec(),
        4 => near.to_ascii_lowercase(),
        5 => near[..near.len() / 2].to_vec(),
        6 => [&near[..near.len() - 1], b"00"].concat(),
        7 => [&near[..near.len() - 1], b"\r"].concat(),
        _ => vec![b'0'; random.within(1, 400)],
    };
    if line.last() != Some(&b'\n') {
        line.push(b'\n');
    }
    input.lines.insert(gap, line);
}

fn last_feed_dropped(random: &mut Random, input: &mut Input) {
    if random.one_in(3) {
        line_moved(random, input);
    }
    if let Some(line) = input.lines.last_mut() {
        line.pop();
    }
}

fn step_more(random: &mut Random, input: &mut Input) {
    let frame = any_step(random, &text_of(input));
    let gap = some_gap(random, input);
    input.lines.insert(gap, frame);
}

/// A row of the 08 line changed: for any, for the first that is not there, or for FF.
fn row_of_variable(random: &mut Random, input: &mut Input) {
    let rows = text_of(input).rows.len();
    if input.opening.len() > 6 {
        let place = 2 * random.within(2, (input.opening.len() - 1) / 2 - 1);
        let other = random.below(rows.max(1));
        let row = *random.pick(&[rows.min(255), 255, other]);
        input.opening[place..place + 2].copy_from_slice(format!("{:02X}", row).as_bytes());
    }
}

/// A row less or more in the 08 line, with its count or without.
fn count_changed(random: &mut Random, input: &mut Input) {
    let Some(feed) = input.opening.len().checked_sub(1) else { return };
    if random.one_in(2) {
        input.opening.splice(feed..feed, *b"00");
    } else {
        input.opening.drain(feed.saturating_sub(2)..feed);
    }
    if input.opening.len() >= 5 && !random.one_in(4) {
        let count = ((input.opening.len() - 5) / 2).min(255);
        input.opening[2..4].copy_from_slice(format!("{:02X}", count).as_bytes());
    }
}

fn opening_malformed(random: &mut Random, input: &mut Input) {
    let Some(feed) = input.opening.len().checked_sub(1) else { return };
    match random.below(8) {
        0 => input.opening.clear(),
        1 => input.opening = b"08\n".to_vec(),
        2 => input.opening.insert(feed, b'\r'),
        3 => input.opening.insert(feed, b'0'),
        4 => input.opening[random.within(2.min(feed), feed)] = *random.pick(b"aG \n"),
        5 => input.opening = b"0805000000000000\n".to_vec(),
        6 => drop(input.opening.pop()),
        _ => {
            input.opening.pop();
            input.lines.clear();
        }
    }
}

/// A text that is refused, most of the time; or one just as long as is read, or a byte longer.
fn text_spoilt(random: &mut Random, input: &mut Input) {
    if random.one_in(4) {
        let length = INPUT_LIMIT + random.below(2);
        input.text.resize(length - 1, b'1');
        input.text.push(b'\n');
    } else {
        input.text = spoilt(random, std::mem::take(&mut input.text));
    }
}
