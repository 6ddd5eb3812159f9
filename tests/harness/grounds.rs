//! Grounds: what the program writes for a text, and what the other says of these and of spoilt ones, beside the reference.

use crate::frames::Input;
use crate::programs::Programs;
use crate::random::Random;
use crate::spoil::{spoil, spoil_frames};
use reference::breach::{is_breach, variables};
use reference::grounds::{conclusion_in, parts_of, step_in, verify_prints, Conclusion, Name, Parts, Step};
use reference::text::{read, Pattern, Text};
use reference::{find, find_prints, found_line, rule, Found};

/// The most steps that are written for a breach: as many shared ones, and as many of each unequal literal; and the most in all.
const MOST_OF_OWNER: usize = 16_384;
const MOST_STEPS: usize = 278_528;
/// So many spoilt inputs are made of one.
const SPOILT: usize = 3;
const ACCEPTED: &[u8] = b"0B00\n";

/// What was tried for a text.
#[derive(Default)]
pub struct Tried {
    pub said: Vec<String>,
    /// The first input of `verify` that shows a difference.
    pub input: Option<Vec<u8>>,
    /// The reference's replies to the inputs.
    pub replies: Vec<Vec<u8>>,
    /// How many steps were written, where there is a breach, and the most for one literal of its own.
    pub steps: Option<usize>,
    pub owned_steps: usize,
}

/// A text through `grounds`, and through `verify` inputs that are made of it.
pub fn tried(random: &mut Random, text: &[u8], programs: &Programs) -> Tried {
    let mut tried = Tried::default();
    if !programs.judge() {
        return tried;
    }
    let found = find(text);
    let own = own_input(random, text, &found);
    if own.opening == found_line(&found) && verify_prints(&own.bytes()) != ACCEPTED {
        tried.said.push("the reference does not accept its own grounds".to_string());
    }
    tried.verify_with_spoilt(random, own, spoil, programs);
    let printed = programs.printed("grounds", text);
    tried.said.extend(writer_differences(text, &printed));
    if let (Ok(printed), Found::Breach(_)) = (printed, found) {
        let steps = parts_of(&printed).steps;
        tried.steps = Some(steps.len());
        tried.owned_steps = (1..=u8::MAX).map(|owner| of_owner(&steps, owner)).max().unwrap_or(0);
        tried.verify_with_spoilt(random, Input::printed(text, &printed), spoil_frames, programs);
    }
    tried
}

impl Tried {
    /// An input as it is; with one change; with some more.
    fn verify_with_spoilt(&mut self, random: &mut Random, input: Input, spoil: fn(&mut Random, &mut Input), programs: &Programs) {
        self.verify(input.bytes(), programs);
        for number in 1..=SPOILT {
            let mut input = input.clone();
            let changes = if number == SPOILT { random.within(1, 3) } else { 1 };
            (0..changes).for_each(|_| spoil(random, &mut input));
            self.verify(input.bytes(), programs);
        }
    }

    /// One input, where there is a `verify`.
    pub fn verify(&mut self, input: Vec<u8>, programs: &Programs) {
        if !programs.judge() {
            return;
        }
        let reply = verify_prints(&input);
        if let Some(said) = reply_difference(&input, &reply, programs) {
            self.said.push(said);
            self.input.get_or_insert(input);
        }
        self.replies.push(reply);
    }
}

/// How the program's reply differs from the reference's, or the reference's from the truth.
pub fn verify_difference(input: &[u8], programs: &Programs) -> Option<String> {
    reply_difference(input, &verify_prints(input), programs)
}

fn reply_difference(input: &[u8], reply: &[u8], programs: &Programs) -> Option<String> {
    let said = programs.difference("verify", input, reply);
    said.or_else(|| (reply == ACCEPTED && !shows_breach(input)).then(|| "the reference accepts what is no breach".to_string()))
}

fn shows_breach(input: &[u8]) -> bool {
    let parts = parts_of(input);
    rule(&parts.text).map_or(false, |text| is_breach(&text, &parts.places))
}

/// Grounds as the reference writes them in one of many ways, mostly for the first breach; for a text that is refused, anything.
fn own_input(random: &mut Random, bytes: &[u8], found: &Found) -> Input {
    match (rule(bytes), found) {
        (Ok(text), Found::Breach(rows)) if !random.one_in(4) => Input::written(random, bytes, &text, rows),
        (Ok(text), _) if !text.rows.is_empty() || variables(&text.patterns) == 0 => {
            let rows: Vec<usize> = (0..variables(&text.patterns)).map(|_| random.below(text.rows.len())).collect();
            Input::written(random, bytes, &text, &rows)
        }
        _ => Input::guessed(random, bytes, &read(bytes).unwrap_or_default()),
    }
}

/// What is wrong with what `grounds` printed for a text, if it did.
pub fn writer_differences(text: &[u8], printed: &std::io::Result<Vec<u8>>) -> Vec<String> {
    let faults = match printed {
        Err(failure) => vec![failure.to_string()],
        Ok(printed) => faults(text, printed),
    };
    faults.iter().map(|fault| format!("program grounds: {}", fault)).collect()
}

/// What is wrong with what the writer printed: its first line is the finder's, frames follow a breach only, first the steps, then a
/// conclusion for each literal in order; 0 in numbers that are not read, no step too many, and each cited.
fn faults(bytes: &[u8], printed: &[u8]) -> Vec<String> {
    let first = find_prints(bytes);
    if !printed.starts_with(&first) {
        return vec![format!("the first line is not the finder's, {}", String::from_utf8_lossy(&first))];
    }
    let frames: Vec<&[u8]> = printed[first.len()..].split_inclusive(|byte| *byte == b'\n').collect();
    if !first.starts_with(b"08") {
        return if frames.is_empty() { Vec::new() } else { vec!["frames without a breach".to_string()] };
    }
    let text = read(bytes).unwrap_or_default();
    let steps: Vec<Step> = frames.iter().map_while(|line| step_in(line)).collect();
    let conclusions: Vec<Conclusion> = frames[steps.len()..].iter().map_while(|line| conclusion_in(line)).collect();
    let mut said = Vec::new();
    let mut ask = |good: bool, fault: &str| said.extend((!good).then(|| fault.to_string()));
    ask(steps.len() + conclusions.len() == frames.len(), "a line that is neither a step nor, behind these, a conclusion");
    ask(conclusions.iter().map(|one| one.literal).eq(1..=text.literals.len()), "not a conclusion for each literal in order");
    ask(steps.len() <= MOST_STEPS, "too many steps");
    ask((0..=u8::MAX).all(|owner| of_owner(&steps, owner) <= MOST_OF_OWNER), "too many steps of one owner");
    let written = Parts { text: bytes.to_vec(), places: parts_of(&first).places, steps, conclusions };
    ask(zero_where_unread(&text, &written), "a number that is not read is not 0");
    ask(all_cited(&written), "a step that nothing cites");
    ask(verify_prints(&[bytes, printed].concat()) == ACCEPTED, "the reference does not accept them");
    said
}

fn of_owner(steps: &[Step], owner: u8) -> usize {
    steps.iter().filter(|step| step.owner == owner).count()
}

/// How many of a step's numbers are read.
fn numbers_read(text: &Text, places: &[usize; 4], step: &Step) -> usize {
    match step.kind {
        1 | 3 => 1,
        4 => 2,
        5 => arguments(text, places, step.left),
        _ => 0,
    }
}

fn arguments(text: &Text, places: &[usize; 4], name: Name) -> usize {
    let of_row = |row: usize| text.rows.get(row).map_or(0, |row| row.arguments.len());
    match text.patterns.get(name.row) {
        Some(Pattern::Variable(variable)) if name.mark == 1 => of_row(places[*variable]),
        Some(Pattern::Symbol(row)) if name.mark == 1 => row.arguments.len(),
        _ => of_row(name.row),
    }
}

fn zero_where_unread(text: &Text, written: &Parts) -> bool {
    let in_step = |step: &Step| step.numbers[numbers_read(text, &written.places, step)..].iter().all(|number| *number == 0);
    let in_conclusion = |one: &Conclusion| {
        let equal = text.literals.get(one.literal - 1).map_or(false, |literal| literal.equal);
        (one.second, one.orientation) == (0, 0) && (!equal || one.difference == 0)
    };
    written.steps.iter().all(in_step) && written.conclusions.iter().all(in_conclusion)
}

/// Each step is cited by a later step or by a conclusion.
fn all_cited(written: &Parts) -> bool {
    let mut cited = vec![false; written.steps.len() + 1];
    let by_steps = written.steps.iter().filter(|step| (3..=5).contains(&step.kind)).flat_map(|step| step.numbers);
    let by_conclusions = written.conclusions.iter().map(|one| one.first);
    for number in by_steps.chain(by_conclusions) {
        cited[number.min(written.steps.len())] |= number <= written.steps.len();
    }
    cited[1..].iter().all(|cited| *cited)
}
