//! The library's C boundary, said once: its functions, and how a reply is packed in a number.
//!
//! A packed reply is kind + 256 * number + 65,536 * place + 2^32 * offset. The finder's kinds are BREACH (number: how many
//! variables; the rows are written, unused places 255), NONE and REFUSED (number, place, offset); it writes rows on a breach
//! only, and so does the function that gives the next breach after some rows. The finder over records has UNFIT besides.
//! The normaliser's are WRITTEN (kind + 256 * bytes) and REFUSED; a refusal writes nothing.

pub const WRITTEN: u64 = 0;
pub const BREACH: u64 = 8;
pub const NONE: u64 = 9;
pub const REFUSED: u64 = 10;
pub const UNFIT: u64 = 11;
pub const UNUSED: u16 = 255;

/// Four rows handed over together.
pub type Rows = [u16; 4];

/// A row of a table.
#[repr(C)]
#[derive(Clone, Copy)]
pub struct Record {
    pub symbol: u16,
    pub count: u8,
    pub args: [u16; 4],
}

#[repr(C)]
pub struct Statements {
    pub kinds: [u8; 510],
    pub lefts: [u16; 510],
    pub rights: [u16; 510],
    pub count: usize,
}

#[repr(C)]
pub struct Rule {
    pub patterns: usize,
    pub kinds: [u8; 64],
    pub heads: [u16; 64],
    pub counts: [u8; 64],
    pub args: [u16; 256],
    pub literals: usize,
    pub signs: [u8; 16],
    pub lefts: [u16; 16],
    pub rights: [u16; 16],
}

extern "C" {
    fn checker_find(text: *const u8, length: usize, rows: *mut u16) -> u64;
    fn checker_next(text: *const u8, length: usize, rows: *mut u16) -> u64;
    fn checker_find_rows(rows: *const Record, count: usize, said: &Statements, rule: &Rule, places: *mut u16) -> u64;
    fn checker_normalise(text: *const u8, length: usize, lent: *mut u8, space: usize) -> u64;
}

pub fn find(text: &[u8], rows: &mut Rows) -> u64 {
    unsafe { checker_find(text.as_ptr(), text.len(), rows.as_mut_ptr()) }
}

/// The rows are an assignment; on a breach the next one after it takes their place.
pub fn next(text: &[u8], rows: &mut Rows) -> u64 {
    unsafe { checker_next(text.as_ptr(), text.len(), rows.as_mut_ptr()) }
}

pub fn find_rows(rows: &[Record], said: &Statements, rule: &Rule, places: &mut Rows) -> u64 {
    unsafe { checker_find_rows(rows.as_ptr(), rows.len(), said, rule, places.as_mut_ptr()) }
}

pub fn normalise(text: &[u8], lent: &mut [u8]) -> u64 {
    unsafe { checker_normalise(text.as_ptr(), text.len(), lent.as_mut_ptr(), lent.len()) }
}

pub fn breach(rows: &[usize]) -> (u64, Rows) {
    let mut places = [UNUSED; 4];
    for (place, row) in places.iter_mut().zip(rows) {
        *place = *row as u16;
    }
    (BREACH + 256 * rows.len() as u64, places)
}

pub fn refused(number: u8, place: usize, offset: usize) -> u64 {
    REFUSED + 256 * u64::from(number) + 65_536 * place as u64 + (1 << 32) * offset as u64
}

pub fn written(bytes: usize) -> u64 {
    WRITTEN + 256 * bytes as u64
}

/// A packed reply in words.
pub fn words(reply: u64) -> String {
    let (kind, number, place, offset) = (reply % 256, reply / 256 % 256, reply / 65_536 % 65_536, reply >> 32);
    match kind {
        WRITTEN => format!("{} bytes written", reply / 256),
        BREACH if place == 0 && offset == 0 => format!("breach of {} variables", number),
        NONE if reply == NONE => "none".to_string(),
        UNFIT if reply == UNFIT => "not well-formed".to_string(),
        REFUSED => format!("refusal {} at {}, byte {}", number, place, offset),
        _ => format!("reply of kind {}, number {}, place {}, offset {}", kind, number, place, offset),
    }
}
