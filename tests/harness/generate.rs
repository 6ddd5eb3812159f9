//! The texts of a seed: what each one is aimed at, and how it is made.

use crate::clause::{add_any_literals, add_following_literals, add_literals, add_patterns};
use crate::context::context;
use crate::damage::{faulty, fill, garbage, long, many_faults, spoilt, LIMITS};
use crate::draft::{bytes_of, draft_of, shuffle_statements};
use crate::follow::{clash_together, context_that_follows, fill_statements, follows, has_outside, outside, together};
use crate::random::Random;
use reference::breach::{assignments, variables, Terms};
use reference::closing::close;
use reference::text::{read, Text};
use reference::{find, Found, INPUT_LIMIT};

/// What a text is to show.
#[derive(Clone, Copy, Debug, PartialEq)]
pub enum Aim {
    /// A breach with two or more variables.
    Breach,
    /// The same, with variable 0 in the last half of the rows.
    LateBreach,
    /// A breach in which an unequal literal holds by so many levels of congruence or more.
    Follows(usize),
    /// The same, with as many equations or differences as there may be.
    FollowsFull,
    /// No breach, though two unequal literals would clash together.
    Together,
    /// An unequal literal with an instance outside the table.
    Outside,
    /// No breach, though some literal holds under some assignment.
    None,
    /// Any reply to a text without a faulty line.
    Any,
    /// A refusal of the finder by this number.
    Refusal(u8),
    /// Several faults in one line.
    ManyFaults,
    /// Bytes spoilt with no aim.
    Spoilt,
    /// Groups at their limits or one beyond.
    Limits,
    /// Bytes that were never a text.
    Garbage,
    /// More bytes than a program takes in.
    Long,
}

/// Of a hundred texts, how many have which aim.
const SHARES: [(Aim, usize); 23] = [
    (Aim::Breach, 17),
    (Aim::LateBreach, 7),
    (Aim::Follows(1), 5),
    (Aim::Follows(2), 4),
    (Aim::FollowsFull, 1),
    (Aim::Together, 2),
    (Aim::Outside, 2),
    (Aim::None, 24),
    (Aim::Any, 4),
    (Aim::Refusal(1), 2),
    (Aim::Refusal(2), 2),
    (Aim::Refusal(3), 2),
    (Aim::Refusal(4), 2),
    (Aim::Refusal(5), 2),
    (Aim::Refusal(6), 2),
    (Aim::Refusal(7), 2),
    (Aim::Refusal(8), 2),
    (Aim::Refusal(9), 2),
    (Aim::ManyFaults, 4),
    (Aim::Spoilt, 5),
    (Aim::Limits, 3),
    (Aim::Garbage, 2),
    (Aim::Long, 2),
];
const ATTEMPTS: usize = 60;

pub fn aim_of(index: u64) -> Aim {
    let mut place = (index * 37 % 100) as usize;
    for (aim, share) in SHARES {
        if place < share {
            return aim;
        }
        place -= share;
    }
    Aim::Any
}

/// The text of this number of a seed. It misses its aim only after many attempts.
pub fn text_of(random: &mut Random, aim: Aim) -> Vec<u8> {
    let mut bytes = Vec::new();
    for _ in 0..ATTEMPTS {
        bytes = attempt(random, aim);
        if meets(&bytes, aim) {
            break;
        }
    }
    bytes
}

fn attempt(random: &mut Random, aim: Aim) -> Vec<u8> {
    let text = match aim {
        Aim::Breach | Aim::LateBreach => ruled(random, 2, 0),
        Aim::Follows(levels) => following(random, levels),
        Aim::FollowsFull => {
            let mut text = following(random, 1);
            fill_statements(random, &mut text);
            text
        }
        Aim::Together => together(random),
        Aim::Outside => ruled_outside(random),
        Aim::None => almost_ruled(random),
        Aim::Refusal(8) => without_literals(random),
        Aim::Refusal(9) => contradicting(random),
        _ => any(random),
    };
    let bytes = written(random, &text);
    match aim {
        Aim::Refusal(number) if number < 8 => refused(random, number, &bytes),
        Aim::ManyFaults => many_faults(random, lines_of(&bytes)),
        Aim::Spoilt => spoilt(random, bytes),
        Aim::Limits => at_limits(random, text),
        Aim::Garbage => garbage(random),
        Aim::Long => long(random, bytes, INPUT_LIMIT),
        _ => bytes,
    }
}

fn meets(bytes: &[u8], aim: Aim) -> bool {
    let text = || read(bytes).expect("a text without a fault");
    match (aim, find(bytes)) {
        (Aim::Follows(least), Found::Breach(rows)) => follows(&text(), &rows).levels >= least,
        (Aim::FollowsFull, Found::Breach(rows)) => follows(&text(), &rows).levels > 0,
        (Aim::Together, Found::None) => clash_together(&text()),
        (Aim::Outside, Found::None | Found::Breach(_)) => has_outside(&text()),
        (Aim::Breach, Found::Breach(rows)) => rows.len() >= 2,
        (Aim::LateBreach, Found::Breach(rows)) => rows.len() >= 2 && late(bytes, &rows),
        (Aim::None, Found::None) => some_literal_holds(bytes),
        (Aim::Refusal(number), Found::Refused(refused)) => refused.number == number,
        (Aim::Any | Aim::ManyFaults | Aim::Spoilt | Aim::Limits | Aim::Garbage | Aim::Long, _) => true,
        _ => false,
    }
}

/// Whether a search has to leave the first half of the rows behind.
pub fn late(bytes: &[u8], breach: &[usize]) -> bool {
    let rows = read(bytes).map_or(0, |text| text.rows.len());
    breach.first().map_or(false, |row| 2 * row >= rows && *row > 0)
}

/// Whether some literal holds under some assignment.
pub fn some_literal_holds(bytes: &[u8]) -> bool {
    let text = read(bytes).expect("a text without a fault");
    let mut terms = Terms::of(&text);
    let held = assignments(&text).any(|assignment| terms.holding(&text, &assignment).contains(&true));
    held
}

fn written(random: &mut Random, text: &Text) -> Vec<u8> {
    let mut draft = draft_of(text);
    if random.one_in(2) {
        shuffle_statements(random, &mut draft);
    }
    bytes_of(&draft)
}

/// How many rows leave a search that tries every assignment short; at times more, and seldom a full table.
fn rows_for(random: &mut Random, variables: usize) -> usize {
    let chance = random.below(600);
    let sizes = match variables {
        0 => [255, 60, 30],
        1 => [255, 120, 24],
        2 => [255, 60, 13],
        3 => [30, 20, 9],
        _ => [14, 10, 6],
    };
    sizes[if chance == 0 {
        0
    } else if chance < 30 {
        1
    } else {
        2
    }]
}

/// A context and a rule of at least so many variables, of whose literals `failing` were chosen because they do not hold.
fn ruled(random: &mut Random, least: usize, failing: usize) -> Text {
    let variables = random.within(least, 4);
    let most = rows_for(random, variables);
    let mut text = context(random, most);
    let most = if random.one_in(30) { 50 } else { 8 };
    add_patterns(random, &mut text, variables, most);
    add_literals(random, &mut text, failing);
    text
}

/// A context in which differences follow, by so many levels or some more, and a rule that needs one of them.
fn following(random: &mut Random, levels: usize) -> Text {
    let variables = random.within(1, 4);
    let most = rows_for(random, variables);
    let levels = levels + random.below(2);
    let (mut text, pair) = context_that_follows(random, most, levels);
    add_patterns(random, &mut text, variables, 6);
    add_following_literals(random, &mut text, pair);
    text
}

/// Differences that follow, and a rule of terms that are hardly ever in the table.
fn ruled_outside(random: &mut Random) -> Text {
    let (mut text, _) = context_that_follows(random, 12, 1);
    outside(random, &mut text);
    text
}

/// A rule of which some literals were chosen because they do not hold.
fn almost_ruled(random: &mut Random) -> Text {
    let failing = random.within(0, 2);
    ruled(random, 1, failing)
}

/// No variable or more, no row or more, a context that may contradict itself.
fn any(random: &mut Random) -> Text {
    let variables = random.within(0, 4);
    let most = rows_for(random, variables);
    let mut text = if random.one_in(10) { Text::default() } else { context(random, most) };
    if random.one_in(12) {
        text.differences.extend(text.equations.first());
    }
    add_patterns(random, &mut text, variables, 6);
    match random.below(3) {
        0 => add_any_literals(random, &mut text),
        1 => add_literals(random, &mut text, 0),
        _ => add_literals(random, &mut text, 1),
    }
    text
}

/// No literal, and sometimes a contradiction besides.
fn without_literals(random: &mut Random) -> Text {
    let mut text = any(random);
    text.literals.clear();
    if random.one_in(3) {
        text.patterns.clear();
    }
    text
}

/// Differences with equal sides, put among the others.
fn contradicting(random: &mut Random) -> Text {
    let mut text = ruled(random, 0, 0);
    let class = close(&text.rows, &text.equations);
    for _ in 0..random.within(1, 2) {
        let row = random.below(class.len());
        let equal: Vec<usize> = (0..class.len()).filter(|other| class[*other] == class[row]).collect();
        let pair = (*random.pick(&equal), row);
        let place = random.within(0, text.differences.len());
        text.differences.insert(place, pair);
    }
    text
}

/// A fault of this number, and sometimes another in some line.
fn refused(random: &mut Random, number: u8, bytes: &[u8]) -> Vec<u8> {
    let mut draft = lines_of(bytes);
    if random.one_in(3) {
        let other = random.within(2, 7) as u8;
        draft = lines_of(&faulty(random, other, draft));
    }
    faulty(random, number, draft)
}

/// The fields of lines that are all digits.
fn lines_of(bytes: &[u8]) -> Vec<Vec<u8>> {
    let digit = |byte: u8| (byte as char).to_digit(16).expect("a digit") as u8;
    let fields = |line: &[u8]| line.chunks(2).map(|pair| 16 * digit(pair[0]) + digit(pair[1])).collect();
    bytes.split(|byte| *byte == b'\n').filter(|line| !line.is_empty()).map(fields).collect()
}

/// One or two groups filled to their limits, or one line beyond. A rule of many variables is not asked of many rows.
fn at_limits(random: &mut Random, mut text: Text) -> Vec<u8> {
    let groups: Vec<usize> = (0..random.within(1, 2)).map(|_| random.below(LIMITS.len())).collect();
    if groups.contains(&0) && variables(&text.patterns) > 1 {
        text.literals.clear();
    }
    let mut draft = lines_of(&written(random, &text));
    for group in groups {
        let (kind, most) = LIMITS[group];
        let lines = most + random.below(2);
        fill(random, &mut draft, kind, lines);
    }
    bytes_of(&draft)
}
