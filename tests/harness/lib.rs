//! The differential test: texts of a seed through the library in this process, a sample through the programs, all beside the
//! reference.
//!
//! differential SEED NUMBER [WORD..]
//!   --first I     begin with text I
//!   --show        print the texts and the reference's replies, and try nothing
//!   --stop        end at the first difference
//!   --keep NAME   put the first text that differs, shortened, into the folder of kept texts under this name
//!   --trace       say each text's number before it is tried
//!   --grounds K   one text in K goes through `grounds`, and what is made of it through `verify`; 11 where it is not said
//! Environment: PROGRAMS, the folder of the programs (none are run without it); LAUNCH, words that start one; TEXTS, the
//! folder of kept texts.

#[path = "../boundary.rs"]
mod boundary;
mod clause;
mod compare;
mod context;
mod damage;
mod draft;
mod edges;
mod follow;
mod frames;
mod generate;
mod grounds;
mod kept;
mod listing;
mod programs;
mod random;
#[path = "../records.rs"]
mod records;
mod shrink;
mod spoil;
mod tables;
mod tally;

use compare::{case_of, differences, Case};
use generate::{aim_of, text_of, Aim};
use grounds::{tried, verify_difference, writer_differences, Tried};
use programs::Programs;
pub use programs::Standin;
use random::Random;
use tally::Tally;

/// One text in so many goes through the programs, besides those that are too long for them.
const SAMPLE: u64 = 40;
/// One text in so many goes through `grounds`.
const GROUNDS: u64 = 11;

struct Options {
    seed: u64,
    number: u64,
    first: u64,
    show: bool,
    stop: bool,
    trace: bool,
    keep: Option<String>,
    grounds: u64,
}

fn options(words: &[String]) -> Option<Options> {
    let number = |place: usize| words.get(place).and_then(|word| word.parse::<u64>().ok());
    let has = |word: &str| words.iter().any(|other| other == word);
    let after = |word: &str| words.iter().position(|other| other == word).map(|place| place + 1);
    Some(Options {
        seed: number(0)?,
        number: number(1)?,
        first: after("--first").and_then(number).unwrap_or(0),
        show: has("--show"),
        stop: has("--stop"),
        trace: has("--trace"),
        keep: after("--keep").and_then(|place| words.get(place).cloned()),
        grounds: after("--grounds").and_then(number).unwrap_or(GROUNDS).max(1),
    })
}

/// The whole run. Its exit status: 0 nothing differs, 1 something does, 2 it was called wrongly.
pub fn run(standin: Option<Standin>) -> i32 {
    let words: Vec<String> = std::env::args().skip(1).collect();
    let Some(options) = options(&words) else {
        eprintln!("differential SEED NUMBER [--first I] [--show] [--stop] [--keep NAME] [--trace] [--grounds K]");
        return 2;
    };
    let programs = Programs::from_environment(standin);
    let mut run = Run { options, programs, tally: Tally::default(), passed: 0, failed: 0 };
    if run.options.show {
        run.show();
        return 0;
    }
    run.try_kept();
    run.try_texts();
    run.try_edges();
    run.end()
}

struct Run {
    options: Options,
    programs: Programs,
    tally: Tally,
    passed: u64,
    failed: u64,
}

fn texts_folder() -> String {
    std::env::var("TEXTS").unwrap_or_else(|_| "tests/texts".to_string())
}

impl Run {
    fn case(&self, index: u64) -> Case {
        let mut random = Random::of(self.options.seed, index);
        let aim = aim_of(index);
        let text = text_of(&mut random, aim);
        let by_programs = self.programs.there() && (aim == Aim::Long || index % SAMPLE == 0);
        case_of(&mut random, text, by_programs)
    }

    fn indexes(&self) -> std::ops::Range<u64> {
        self.options.first..self.options.first + self.options.number
    }

    fn show(&self) {
        for index in self.indexes() {
            let text = self.case(index).text;
            println!("text {} of seed {}, aimed at {:?}", index, self.options.seed, aim_of(index));
            println!("{}", String::from_utf8_lossy(&text));
            println!("find: {}", String::from_utf8_lossy(&reference::find_prints(&text)));
            println!("breaches: {}", String::from_utf8_lossy(&reference::breaches_prints(&text)));
            println!("normalise: {}", String::from_utf8_lossy(&reference::normalise_prints(&text)));
            println!("grounds: {}", String::from_utf8_lossy(&reference::writing::grounds_prints(&text)));
        }
    }

    fn try_kept(&mut self) {
        for (place, kept) in kept::kept_texts(&texts_folder()).into_iter().enumerate() {
            if self.stopped() {
                return;
            }
            let case =
                Case { text: kept.text.clone(), space: 0, every_space: true, by_programs: self.programs.there(), anew: true };
            let mut said = kept.differences();
            said.extend(differences(&case, &self.programs));
            let mut tried = tried(&mut self.random_of_grounds(place as u64), &kept.text, &self.programs);
            tried.verify(kept.text.clone(), &self.programs);
            said.extend(kept.too_many_steps(tried.steps));
            self.note_case(&format!("kept text {}", kept.name), &case, said, tried);
        }
    }

    fn try_texts(&mut self) {
        for index in self.indexes() {
            if self.stopped() {
                return;
            }
            if self.options.trace {
                eprintln!("text {}", index);
            }
            let case = self.case(index);
            let said = differences(&case, &self.programs);
            self.tally.add(&case.text, case.space, case.by_programs);
            let tried = if said.is_empty() && index % self.options.grounds == 0 {
                tried(&mut self.random_of_grounds(index), &case.text, &self.programs)
            } else {
                Tried::default()
            };
            self.note_case(&format!("text {} of seed {}", index, self.options.seed), &case, said, tried);
        }
    }

    /// The limits of `verify`.
    fn try_edges(&mut self) {
        if !self.programs.judge() {
            return;
        }
        for edge in edges::edges() {
            if self.stopped() {
                return;
            }
            let mut tried = Tried::default();
            tried.verify(edge.input, &self.programs);
            if tried.replies != [edge.reply] {
                tried.said.push("the reference replies something else".to_string());
            }
            self.note(edge.name, &[], &tried);
        }
    }

    /// Other numbers than the text's own.
    fn random_of_grounds(&self, index: u64) -> Random {
        Random::of(!self.options.seed, index)
    }

    fn stopped(&self) -> bool {
        self.options.stop && self.failed > 0
    }

    fn note(&mut self, name: &str, said: &[String], tried: &Tried) {
        self.tally.add_grounds(tried);
        if said.is_empty() && tried.said.is_empty() {
            self.passed += 1;
            return;
        }
        self.failed += 1;
        for difference in said.iter().chain(&tried.said) {
            println!("{}: {}", name, difference);
        }
    }

    /// The first case that differs is kept.
    fn note_case(&mut self, name: &str, case: &Case, said: Vec<String>, tried: Tried) {
        let failed = self.failed;
        self.note(name, &said, &tried);
        if failed == 0 && self.failed == 1 {
            self.keep_shrunk(case, tried.input.filter(|_| said.is_empty()));
        }
    }

    fn keep_shrunk(&self, case: &Case, input: Option<Vec<u8>>) {
        let Some(name) = &self.options.keep else { return };
        let with_grounds = input.is_some();
        let shrunk = match input {
            Some(input) => shrink::shrunk(&input, |input| verify_difference(input, &self.programs).is_some()),
            None => shrink::shrunk(&case.text, |text| self.differs(text, case.by_programs)),
        };
        kept::keep(&texts_folder(), name, &shrunk, with_grounds);
    }

    fn differs(&self, text: &[u8], by_programs: bool) -> bool {
        let case = Case { text: text.to_vec(), space: 0, every_space: true, by_programs, anew: false };
        let by_grounds = || writer_differences(text, &self.programs.printed("grounds", text));
        !differences(&case, &self.programs).is_empty() || (self.programs.judge() && !by_grounds().is_empty())
    }

    fn end(&mut self) -> i32 {
        self.tally.print();
        if !self.options.stop {
            for missed in self.tally.missed(&self.programs) {
                println!("{}", missed);
                self.failed += 1;
            }
        }
        println!("{} passed, {} failed", self.passed, self.failed);
        i32::from(self.failed > 0)
    }
}
