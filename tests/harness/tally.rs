//! How many texts had which reply, and whether each kind had its share.

use crate::follow::{clash_together, follows, has_outside};
use crate::generate::{late, some_literal_holds};
use crate::grounds::Tried;
use crate::programs::Programs;
use crate::tables::tables;
use reference::text::{read, Refusal};
use reference::{find, normalise, Found, INPUT_LIMIT};
use std::collections::BTreeMap;

#[derive(Default)]
pub struct Tally {
    texts: usize,
    replies: BTreeMap<String, usize>,
    many_breaches: usize,
    telling_none: usize,
    late_breaches: usize,
    following: Following,
    /// Texts that some reply refused by this number.
    refusals: [usize; 12],
    sizes: Sizes,
    /// Texts with changed records that are not well-formed, and with others.
    unfit: usize,
    fit: usize,
    /// Inputs of `verify`, by the second byte of an 0B reply, and refusals.
    judged: [usize; 5],
    /// Breaches for which grounds were written, and the most steps.
    grounded: usize,
    steps: usize,
    owned_steps: usize,
}

/// Texts by how their unequal literals hold, or do not.
#[derive(Default)]
struct Following {
    /// Breaches that need more than a stated difference: all of them, and those that need so much more.
    breaches: usize,
    two_levels: usize,
    by_equations: usize,
    full: usize,
    /// None, though two unequal literals would clash together.
    together: usize,
    /// An instance of an unequal literal outside the table.
    outside: usize,
}

const JUDGED: [&str; 5] = ["accepted", "a variable without a row", "a bad step", "a literal not concluded", "refused"];

/// The most of everything in a text without a faulty line.
#[derive(Default)]
struct Sizes {
    rows: usize,
    merged: usize,
    patterns: usize,
    literals: usize,
}

/// Texts from which on the shares are asked for.
const ENOUGH: usize = 1_000;

impl Tally {
    /// A text with the space lent to the normaliser, and whether programs were run on it.
    pub fn add(&mut self, text: &[u8], space: usize, by_programs: bool) {
        self.texts += 1;
        let mut refused = [false; 12];
        self.add_found(text, &mut refused);
        self.add_normal(normalise(text, space), &mut refused);
        if by_programs {
            let long = text.len() > INPUT_LIMIT;
            refused[11] |= long;
            self.count(if long { "programs: refusal 11" } else { "programs: another reply" });
        }
        for (number, refused) in refused.into_iter().enumerate() {
            self.refusals[number] += usize::from(refused);
        }
        self.measure(text);
        self.add_tables(text);
    }

    pub fn add_grounds(&mut self, tried: &Tried) {
        for reply in &tried.replies {
            let place = if reply.starts_with(b"0B") { usize::from(reply[3] - b'0') } else { 4 };
            self.judged[place] += 1;
        }
        self.grounded += usize::from(tried.steps.is_some());
        self.steps = self.steps.max(tried.steps.unwrap_or(0));
        self.owned_steps = self.owned_steps.max(tried.owned_steps);
    }

    fn count(&mut self, reply: &str) {
        *self.replies.entry(reply.to_string()).or_default() += 1;
    }

    fn add_found(&mut self, text: &[u8], refused: &mut [bool; 12]) {
        let found = find(text);
        self.following.add(text, &found);
        match found {
            Found::Breach(rows) => {
                self.many_breaches += usize::from(rows.len() >= 2);
                self.late_breaches += usize::from(late(text, &rows));
                self.count(&format!("find: breach of {} variables", rows.len()));
            }
            Found::None if some_literal_holds(text) => {
                self.telling_none += 1;
                self.count("find: none, some literal holds under some assignment");
            }
            Found::None => self.count("find: none, no literal ever holds"),
            Found::Refused(why) => {
                refused[usize::from(why.number)] = true;
                self.count(&format!("find: refusal {}", why.number));
            }
        }
    }

    fn add_normal(&mut self, reply: Result<Vec<u8>, Refusal>, refused: &mut [bool; 12]) {
        match reply {
            Ok(_) => self.count("normalise: written"),
            Err(why) => {
                refused[usize::from(why.number)] = true;
                self.count(&format!("normalise: refusal {:2}", why.number));
            }
        }
    }

    fn measure(&mut self, text: &[u8]) {
        if let Ok(text) = read(text) {
            let class = reference::closing::close(&text.rows, &text.equations);
            let merged = class.iter().enumerate().filter(|(row, class)| row != *class).count();
            let sizes = &mut self.sizes;
            sizes.rows = sizes.rows.max(text.rows.len());
            sizes.merged = sizes.merged.max(merged);
            sizes.patterns = sizes.patterns.max(text.patterns.len());
            sizes.literals = sizes.literals.max(text.literals.len());
        }
    }

    fn add_tables(&mut self, text: &[u8]) {
        let (fit, unfit): (Vec<bool>, Vec<bool>) =
            tables(text).iter().skip(1).map(|table| table.well_formed()).partition(|fit| *fit);
        self.fit += usize::from(!fit.is_empty());
        self.unfit += usize::from(!unfit.is_empty());
    }

    fn print_following(&self) {
        let following = &self.following;
        println!(
            "{:8}  breaches need more than a stated difference: {} two levels of congruence or more, {} a stated equation, {} among 255 statements",
            following.breaches, following.two_levels, following.by_equations, following.full
        );
        println!("{:8}  none, though two unequal literals would clash together", following.together);
        println!("{:8}  texts have an unequal literal with an instance outside the table", following.outside);
    }

    pub fn print(&self) {
        for (reply, count) in &self.replies {
            println!("{:8}  {}", count, reply);
        }
        for (said, count) in JUDGED.iter().zip(self.judged) {
            println!("{:8}  verify: {}", count, said);
        }
        println!(
            "{:8}  breaches with grounds, of {} steps at most, {} of one literal's own",
            self.grounded, self.steps, self.owned_steps
        );
        self.print_following();
        println!("{:8}  texts have changed records that are not well-formed, {} others", self.unfit, self.fit);
        println!("{:8}  breaches are late: variable 0 has a row of the last half", self.late_breaches);
        let sizes = &self.sizes;
        println!(
            "largest: {} rows, {} of them merged, {} pattern rows, {} literals",
            sizes.rows, sizes.merged, sizes.patterns, sizes.literals
        );
    }

    /// The shares that were missed. Refusal 11 is asked for where programs are run, and each reply of `verify` where it is.
    pub fn missed(&self, programs: &Programs) -> Vec<String> {
        let mut missed = Vec::new();
        let mut ask = |what: String, count: usize, of: usize| {
            if self.texts >= ENOUGH && count * of < self.texts {
                missed.push(format!("share missed: {} of {} texts {}, fewer than one in {}", count, self.texts, what, of));
            }
        };
        ask("are breaches with two or more variables".into(), self.many_breaches, 4);
        ask("are none with a literal that holds somewhere".into(), self.telling_none, 4);
        let following = &self.following;
        ask("are breaches that need more than a stated difference".into(), following.breaches, 20);
        ask("are breaches that need two levels of congruence or more".into(), following.two_levels, 40);
        ask("are breaches that need a stated equation besides".into(), following.by_equations, 50);
        ask("are breaches of this kind among 255 equations or differences".into(), following.full, 200);
        ask("are none though two unequal literals would clash together".into(), following.together, 80);
        ask("have an unequal literal with an instance outside the table".into(), following.outside, 20);
        ask("have changed records that are not well-formed".into(), self.unfit, 4);
        ask("have other changed records".into(), self.fit, 4);
        for number in 1..=if programs.there() { 11 } else { 10 } {
            ask(format!("are refused by {}", number), self.refusals[number], 100);
        }
        let inputs: usize = self.judged.iter().sum();
        for (said, count) in JUDGED.iter().zip(self.judged).filter(|_| programs.judge() && inputs >= ENOUGH) {
            if count * 20 < inputs {
                missed.push(format!(
                    "share missed: of {} inputs verify says {} times '{}', fewer than one in 20",
                    inputs, count, said
                ));
            }
        }
        missed
    }
}

impl Following {
    fn add(&mut self, bytes: &[u8], found: &Found) {
        let Ok(text) = read(bytes) else { return };
        match found {
            Found::Refused(_) => return,
            Found::None => self.together += usize::from(clash_together(&text)),
            Found::Breach(rows) => {
                let how = follows(&text, rows);
                self.breaches += usize::from(how.levels > 0);
                self.two_levels += usize::from(how.levels > 1);
                self.by_equations += usize::from(how.by_equations);
                self.full += usize::from(how.levels > 0 && text.equations.len().max(text.differences.len()) == 255);
            }
        }
        self.outside += usize::from(has_outside(&text));
    }
}
