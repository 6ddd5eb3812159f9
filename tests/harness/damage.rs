//! Damage: a fault of a given number in some line, or bytes that were spoilt with no aim.

use crate::draft::{bytes_of, rank_of, Draft};
use crate::random::Random;
use reference::normal::line;
use reference::text::FURTHEST;

/// Bytes near the digits, and some far from them.
const NO_DIGITS: [u8; 14] = [b'/', b':', b'@', b'G', b'a', b'f', b'g', b' ', b'\r', b'\t', 0, 0x80, 0xB1, 0xFF];
/// A kind of each group, and how many lines the group may have.
pub const LIMITS: [(u8, usize); 5] = [(1, 255), (2, 255), (3, 255), (4, 64), (6, 16)];

/// A text with a fault of this number (1 to 7) in some line, if the draft has a line that takes one.
pub fn faulty(random: &mut Random, number: u8, mut draft: Draft) -> Vec<u8> {
    if draft.is_empty() {
        draft.push(vec![1, 0, 0x10, 0]);
    }
    match number {
        1 => illegible(random, &draft),
        2 => in_some_line(random, draft, |_| true, unknown_kind),
        3 => in_some_line(random, draft, |_| true, wrong_size),
        4 => falling_rank(random, draft),
        5 if random.one_in(3) => one_too_many(random, draft),
        5 => in_some_line(random, draft, takes_fault_5, too_high),
        6 => in_some_line(random, draft, names_rows, no_row),
        _ => other_count(random, draft),
    }
}

/// Changes one line among those that are fit for it. A change is told how many lines of its rank stand before.
fn in_some_line(
    random: &mut Random,
    mut draft: Draft,
    fit: fn(&[u8]) -> bool,
    change: fn(&mut Random, &mut Vec<u8>, usize),
) -> Vec<u8> {
    let places: Vec<usize> = (0..draft.len()).filter(|place| fit(&draft[*place])).collect();
    if !places.is_empty() {
        let place = *random.pick(&places);
        let rank = rank_of(&draft[place]);
        let earlier = draft[..place].iter().filter(|fields| rank_of(fields) == rank).count();
        change(random, &mut draft[place], earlier);
    }
    bytes_of(&draft)
}

fn unknown_kind(random: &mut Random, fields: &mut Vec<u8>, _earlier: usize) {
    fields[0] = *random.pick(&[0, 8, 9, 10, 0x11, 0x80, 0xFF]);
}

fn illegible(random: &mut Random, draft: &Draft) -> Vec<u8> {
    let mut lines: Vec<Vec<u8>> = draft.iter().map(|fields| line(fields)).collect();
    let place = random.below(lines.len());
    let last = lines.len() - 1;
    let digits = lines[place].len() - 1;
    match random.below(8) {
        0 => lines[place] = vec![b'\n'],
        1 => drop(lines[place].remove(0)),
        2 => lines[place].insert(digits, b'0'),
        3 => drop(lines[last].pop()),
        4 => lines[place].insert(digits, b'\r'),
        5 | 6 => lower_case(random, &mut lines),
        _ => lines[place][random.below(digits)] = *random.pick(&NO_DIGITS),
    }
    lines.concat()
}

/// A line that has letters among its digits, in lower case.
fn lower_case(random: &mut Random, lines: &mut [Vec<u8>]) {
    let has_letter = |line: &Vec<u8>| line.iter().any(u8::is_ascii_uppercase);
    let places: Vec<usize> = (0..lines.len()).filter(|place| has_letter(&lines[*place])).collect();
    if !places.is_empty() {
        lines[*random.pick(&places)].make_ascii_lowercase();
    }
}

fn wrong_size(random: &mut Random, fields: &mut Vec<u8>, _earlier: usize) {
    let has_count = has_symbol(fields) && fields.len() >= 4;
    match random.below(4) {
        0 if has_count => fields[3] = fields[3].wrapping_add(*random.pick(&[1, 2, 255, 128])),
        1 if fields.len() > 1 => drop(fields.pop()),
        2 if fields.len() > 1 => fields.truncate(random.within(1, fields.len() - 1)),
        _ => fields.push(random.byte()),
    }
}

/// A line moved behind one of higher rank.
fn falling_rank(random: &mut Random, mut draft: Draft) -> Vec<u8> {
    let highest = draft.iter().map(|fields| rank_of(fields)).max().unwrap_or(0);
    let lower: Vec<usize> = (0..draft.len()).filter(|place| rank_of(&draft[*place]) < highest).collect();
    if lower.is_empty() {
        draft.push(vec![1, 0, 0x10, 0]);
        return bytes_of(&draft);
    }
    let fields = draft[*random.pick(&lower)].clone();
    let first = draft.iter().position(|other| rank_of(other) > rank_of(&fields)).unwrap_or(0);
    let place = random.within(first + 1, draft.len());
    draft.insert(place, fields);
    bytes_of(&draft)
}

/// Whether a line has the length of its kind. One that was damaged before may not.
fn whole(fields: &[u8]) -> bool {
    match fields[0] {
        1 | 5 => fields.len() >= 4 && fields.len() == 4 + usize::from(fields[3]),
        4 => fields.len() == 2,
        _ => fields.len() == 3,
    }
}

fn takes_fault_5(fields: &[u8]) -> bool {
    whole(fields) && matches!(fields[0], 1 | 4 | 5)
}

/// A variable above 3, or more than four arguments with a count that says so.
fn too_high(random: &mut Random, fields: &mut Vec<u8>, _earlier: usize) {
    if fields[0] == 4 {
        fields[1] = *random.pick(&[4, 4, 4, 5, 0x80, 0xFF]);
        return;
    }
    fields[3] = *random.pick(&[5, 6, 255]);
    fields.resize(4 + usize::from(fields[3]), 0);
}

/// A group filled with copies of its lines, to one beyond its limit.
fn one_too_many(random: &mut Random, mut draft: Draft) -> Vec<u8> {
    let (kind, most) = *random.pick(&LIMITS);
    fill(random, &mut draft, kind, most + 1);
    bytes_of(&draft)
}

/// Gives the group of a kind so many lines, if it has one, by copies behind its last.
pub fn fill(random: &mut Random, draft: &mut Draft, kind: u8, lines: usize) {
    let group = |fields: &Vec<u8>| group_of(fields[0]) == group_of(kind);
    let places: Vec<usize> = (0..draft.len()).filter(|place| group(&draft[*place])).collect();
    if let Some(last) = places.last() {
        for _ in places.len()..lines {
            let copy = draft[*random.pick(&places)].clone();
            draft.insert(last + 1, copy);
        }
    }
}

/// Several faults in one line, of which the lowest number decides.
pub fn many_faults(random: &mut Random, mut draft: Draft) -> Vec<u8> {
    if draft.is_empty() {
        return Vec::new();
    }
    let mut place = random.below(draft.len());
    if random.one_in(3) {
        place = one_beyond(random, &mut draft, place);
    }
    for _ in 0..random.within(1, 3) {
        spoil_line(random, &mut draft, place);
    }
    if random.one_in(3) {
        let fields = draft.remove(place);
        draft.push(fields);
        place = draft.len() - 1;
    }
    let mut lines: Vec<Vec<u8>> = draft.iter().map(|fields| line(fields)).collect();
    if random.one_in(8) {
        lines[place][1] = *random.pick(&NO_DIGITS);
    }
    lines.concat()
}

/// Fills the group of a line, and gives the place of the one line too many.
fn one_beyond(random: &mut Random, draft: &mut Draft, place: usize) -> usize {
    let group = group_of(draft[place][0]);
    let most = LIMITS.iter().find(|(kind, _)| *kind == group).map_or(0, |(_, most)| *most);
    fill(random, draft, group, most + 1);
    draft.iter().rposition(|fields| group_of(fields[0]) == group).unwrap_or(place)
}

/// One more fault in a line, where its kind takes one.
fn spoil_line(random: &mut Random, draft: &mut Draft, place: usize) {
    let rank = rank_of(&draft[place]);
    let earlier = draft[..place].iter().filter(|fields| rank_of(fields) == rank).count();
    let fields = &mut draft[place];
    match random.below(9) {
        0 => unknown_kind(random, fields, earlier),
        1 => wrong_size(random, fields, earlier),
        2 | 3 if takes_fault_5(fields) => too_high(random, fields, earlier),
        4 | 5 | 6 if names_rows(fields) => no_row(random, fields, earlier),
        _ if has_symbol(fields) && whole(fields) => recount(random, fields),
        _ => {}
    }
}

/// Another count, and as many arguments.
fn recount(random: &mut Random, fields: &mut Vec<u8>) {
    fields[3] = (fields[3] + random.within(1, 4) as u8) % 5;
    fields.resize(4 + usize::from(fields[3]), 0);
}

/// Pattern rows are one group, and literals are one.
fn group_of(kind: u8) -> u8 {
    match kind {
        4 | 5 => 4,
        6 | 7 => 6,
        _ => kind,
    }
}

fn names_rows(fields: &[u8]) -> bool {
    whole(fields) && fields[0] != 4 && (!has_symbol(fields) || fields.len() > 4)
}

fn has_symbol(fields: &[u8]) -> bool {
    matches!(fields[0], 1 | 5)
}

/// A row that is not there: the row itself, one near it, or FF.
fn no_row(random: &mut Random, fields: &mut Vec<u8>, earlier: usize) {
    let first = if has_symbol(fields) { 4 } else { 1 };
    let place = random.within(first, fields.len() - 1);
    let near = usize::from(fields[place]) + random.within(1, 12);
    fields[place] = match random.below(3) {
        0 => 0xFF,
        1 => near.min(255) as u8,
        _ => earlier.min(255) as u8,
    };
}

/// A symbol again, with another count.
fn other_count(random: &mut Random, mut draft: Draft) -> Vec<u8> {
    let places: Vec<usize> = (0..draft.len()).filter(|place| whole(&draft[*place]) && has_symbol(&draft[*place])).collect();
    let mut fields = if places.is_empty() || random.one_in(3) {
        let new = vec![*random.pick(&[1, 5]), 0x7E, random.byte(), 0];
        at_end_of_rank(&mut draft, new.clone());
        new
    } else {
        draft[*random.pick(&places)].clone()
    };
    fields[0] = *random.pick(&[1, 5]);
    recount(random, &mut fields);
    at_end_of_rank(&mut draft, fields);
    bytes_of(&draft)
}

/// Puts a line behind the last one that is of no higher rank.
fn at_end_of_rank(draft: &mut Draft, fields: Vec<u8>) {
    let behind = draft.iter().rposition(|other| rank_of(other) <= rank_of(&fields)).map_or(0, |last| last + 1);
    draft.insert(behind, fields);
}

/// Bytes spoilt with no aim at a number.
pub fn spoilt(random: &mut Random, mut bytes: Vec<u8>) -> Vec<u8> {
    for _ in 0..random.within(1, 2) {
        bytes = spoilt_once(random, bytes);
    }
    bytes
}

fn spoilt_once(random: &mut Random, mut bytes: Vec<u8>) -> Vec<u8> {
    if bytes.is_empty() {
        return vec![random.byte()];
    }
    let place = random.below(bytes.len());
    match random.below(11) {
        0 | 1 => bytes[place] ^= 1 << random.below(8),
        2 | 3 => bytes[place] = *random.pick(b"0123456789ABCDEF"),
        4 => bytes.truncate(place),
        5 => bytes.insert(place, *random.pick(b"\n\r0A ")),
        6 => drop(bytes.remove(place)),
        7 => bytes = with_carriage_returns(&bytes),
        8 => bytes = lines_moved(random, &bytes),
        9 => bytes.drain(..place).for_each(drop),
        _ => bytes.extend_from_within(place..),
    }
    bytes
}

fn with_carriage_returns(bytes: &[u8]) -> Vec<u8> {
    bytes.iter().flat_map(|byte| if *byte == b'\n' { vec![b'\r', b'\n'] } else { vec![*byte] }).collect()
}

/// A line taken out, doubled, or changed for another, or an empty one put in.
fn lines_moved(random: &mut Random, bytes: &[u8]) -> Vec<u8> {
    let mut lines: Vec<Vec<u8>> = bytes.split_inclusive(|byte| *byte == b'\n').map(<[u8]>::to_vec).collect();
    let (place, other) = (random.below(lines.len()), random.below(lines.len()));
    match random.below(4) {
        0 => drop(lines.remove(place)),
        1 => lines.insert(place, lines[place].clone()),
        2 => lines.swap(place, other),
        _ => lines.insert(place, vec![b'\n']),
    }
    lines.concat()
}

/// Bytes that were never a text.
pub fn garbage(random: &mut Random) -> Vec<u8> {
    let length = random.below(60);
    if random.one_in(2) {
        return (0..length).map(|_| random.byte()).collect();
    }
    (0..length).map(|_| *random.pick(b"0000011122334456677\n\n")).collect()
}

/// More bytes than a program takes in, or just as many.
pub fn long(random: &mut Random, mut bytes: Vec<u8>, limit: usize) -> Vec<u8> {
    if random.one_in(2) {
        return long_line(random, bytes);
    }
    let length = limit + *random.pick(&[1, 1, 2, 100, 5_000]);
    while bytes.len() < length {
        match random.below(3) {
            0 => bytes.extend_from_slice(b"060000\n"),
            1 => bytes.extend_from_slice(b"01001000\n"),
            _ => bytes.push(b'0'),
        }
    }
    bytes.truncate(length);
    bytes
}

/// A last line of about as many digits as an offset can say; then, at times, a byte that is no digit, and digits after it.
fn long_line(random: &mut Random, mut bytes: Vec<u8>) -> Vec<u8> {
    let digits = FURTHEST - 3 + random.below(7);
    bytes.resize(bytes.len() + digits, b'0');
    if random.one_in(2) {
        bytes.push(*random.pick(&NO_DIGITS));
        bytes.resize(bytes.len() + random.below(3), b'0');
    }
    if random.one_in(2) {
        bytes.push(b'\n');
    }
    bytes
}
