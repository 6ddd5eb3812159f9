//! reference find | normalise | breaches | grounds | verify     a text on standard input (for verify with grounds after it), the
//! program's reply on standard output

use std::io::{Read, Write};

fn main() {
    let mut input = Vec::new();
    std::io::stdin().read_to_end(&mut input).expect("standard input");
    let reply = match std::env::args().nth(1).as_deref() {
        Some("find") => reference::find_prints(&input),
        Some("normalise") => reference::normalise_prints(&input),
        Some("breaches") => reference::breaches_prints(&input),
        Some("grounds") => reference::writing::grounds_prints(&input),
        Some("verify") => reference::grounds::verify_prints(&input),
        _ => panic!("reference find | normalise | breaches | grounds | verify"),
    };
    std::io::stdout().write_all(&reply).expect("standard output");
}
