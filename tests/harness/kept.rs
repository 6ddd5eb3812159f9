//! Texts that are kept with their replies: NAME.in, and what programs print for it, NAME.find, NAME.norm and NAME.all, or
//! NAME.verify where grounds follow the text. NAME.steps says how many steps are written for it at most.

use reference::grounds::verify_prints;
use reference::{breaches_prints, find_prints, normalise_prints};
use std::fs;
use std::path::{Path, PathBuf};

pub struct Kept {
    pub name: String,
    pub text: Vec<u8>,
    replies: Vec<(&'static Program, Vec<u8>)>,
    steps: Option<usize>,
}

/// The ending of the replies, and what the reference says.
struct Program {
    name: &'static str,
    ending: &'static str,
    prints: fn(&[u8]) -> Vec<u8>,
}

const OF_TEXTS: [Program; 3] = [
    Program { name: "find", ending: "find", prints: find_prints },
    Program { name: "normalise", ending: "norm", prints: normalise_prints },
    Program { name: "breaches", ending: "all", prints: breaches_prints },
];
const OF_GROUNDS: [Program; 1] = [Program { name: "verify", ending: "verify", prints: verify_prints }];

pub fn kept_texts(folder: &str) -> Vec<Kept> {
    let entries = fs::read_dir(folder).unwrap_or_else(|failure| panic!("{}: {}", folder, failure));
    let mut inputs: Vec<PathBuf> = entries.map(|entry| entry.expect("an entry").path()).collect();
    inputs.retain(|path| path.extension().map_or(false, |extension| extension == "in"));
    inputs.sort();
    inputs.iter().map(|path| kept_text(path)).collect()
}

fn kept_text(path: &Path) -> Kept {
    let name = path.file_stem().expect("a name").to_string_lossy().into_owned();
    let read = |ending: &str| fs::read(path.with_extension(ending)).ok();
    let programs = OF_TEXTS.iter().chain(&OF_GROUNDS);
    let replies = programs.filter_map(|program| Some((program, read(program.ending)?))).collect();
    let steps = read("steps").map(|number| String::from_utf8_lossy(&number).trim().parse().expect("a number of steps"));
    Kept { name, text: read("in").expect("a text"), replies, steps }
}

impl Kept {
    /// Whether the reference still gives the replies that were kept.
    pub fn differences(&self) -> Vec<String> {
        if self.replies.is_empty() {
            return vec!["no reply was kept".to_string()];
        }
        let others = self.replies.iter().filter(|(program, kept)| (program.prints)(&self.text) != *kept);
        others.map(|(program, _)| format!("{}: the reference says something else than was kept", program.name)).collect()
    }

    /// Whether more steps were written than were kept as the most.
    pub fn too_many_steps(&self, written: Option<usize>) -> Option<String> {
        let (written, most) = (written?, self.steps?);
        (written > most).then(|| format!("program grounds: {} steps, and {} are kept as the most", written, most))
    }
}

/// Keeps a text, or an input of `verify`, with its replies.
pub fn keep(folder: &str, name: &str, text: &[u8], with_grounds: bool) {
    let path = Path::new(folder).join(name);
    let write = |ending: &str, bytes: &[u8]| {
        fs::write(path.with_extension(ending), bytes).unwrap_or_else(|failure| panic!("{}: {}", path.display(), failure));
    };
    write("in", text);
    let programs = if with_grounds { &OF_GROUNDS[..] } else { &OF_TEXTS[..] };
    programs.iter().for_each(|program| write(program.ending, &(program.prints)(text)));
}
