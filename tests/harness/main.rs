//! The differential test as a program. With `standin` it is linked with a crate that stands in for the library.
//! It has no Rust `main`: Rust's start does not run under every emulator of x86-64.

#![no_main]

#[cfg(standin)]
extern crate standin as _;

/// The reference stands in for two programs besides.
#[cfg(judging)]
const STANDIN: Option<harness::Standin> = Some(standin::program);
#[cfg(not(judging))]
const STANDIN: Option<harness::Standin> = None;

extern "C" {
    fn signal(number: i32, action: usize) -> usize;
}

const BROKEN_PIPE: i32 = 13;
const IGNORE: usize = 1;

/// A program may end before it has read a long text: writing on is then an error, as after Rust's start, and no signal.
#[no_mangle]
pub extern "C" fn main(_words: i32, _first: *const *const u8) -> i32 {
    unsafe { signal(BROKEN_PIPE, IGNORE) };
    harness::run(STANDIN)
}
