//! The programs, run on a text by standard input and standard output; or what stands in for two of them.

use std::io::Write;
use std::process::{Command, Stdio};

/// What `grounds` and `verify` print, in this process.
pub type Standin = fn(&str, &[u8]) -> Vec<u8>;

pub struct Programs {
    /// The folder of the programs; none are run without one.
    folder: Option<String>,
    /// Words that start a program of another processor.
    launch: Vec<String>,
    /// Where no programs are run.
    standin: Option<Standin>,
}

impl Programs {
    pub fn from_environment(standin: Option<Standin>) -> Programs {
        let folder = std::env::var("PROGRAMS").ok().filter(|folder| !folder.is_empty());
        let launch = std::env::var("LAUNCH").unwrap_or_default();
        Programs { folder, launch: launch.split_whitespace().map(String::from).collect(), standin }
    }

    pub fn there(&self) -> bool {
        self.folder.is_some()
    }

    /// Whether there is a `grounds` and a `verify`.
    pub fn judge(&self) -> bool {
        self.there() || self.standin.is_some()
    }

    /// How what a program prints differs from what it should print.
    pub fn difference(&self, name: &str, text: &[u8], expected: &[u8]) -> Option<String> {
        match self.printed(name, text) {
            Err(failure) => Some(format!("program {}: {}", name, failure)),
            Ok(got) if got == expected => None,
            Ok(got) => Some(format!("program {} printed {:?}, the reference says {:?}", name, shown(&got), shown(expected))),
        }
    }

    pub fn printed(&self, name: &str, text: &[u8]) -> std::io::Result<Vec<u8>> {
        match (&self.folder, self.standin) {
            (Some(folder), _) => self.run(&format!("{}/{}", folder, name), text),
            (None, Some(standin)) => Ok(standin(name, text)),
            (None, None) => Err(std::io::Error::new(std::io::ErrorKind::NotFound, "no programs")),
        }
    }

    fn run(&self, program: &str, text: &[u8]) -> std::io::Result<Vec<u8>> {
        let mut words = self.launch.clone();
        words.push(program.to_string());
        let mut child = Command::new(&words[0]).args(&words[1..]).stdin(Stdio::piped()).stdout(Stdio::piped()).spawn()?;
        let mut stdin = child.stdin.take().expect("standard input");
        let _ = stdin.write_all(text); // a program may end before it has read all
        drop(stdin);
        let output = child.wait_with_output()?;
        if !output.status.success() {
            return Err(std::io::Error::new(std::io::ErrorKind::Other, output.status.to_string()));
        }
        Ok(output.stdout)
    }
}

/// A reply on one line, cut where it is long.
fn shown(reply: &[u8]) -> String {
    let text = String::from_utf8_lossy(&reply[..reply.len().min(80)]).replace('\n', "|");
    if reply.len() > 80 {
        text + ".."
    } else {
        text
    }
}
