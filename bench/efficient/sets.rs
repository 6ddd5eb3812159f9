//! Sets of rows as bits.

pub const WORDS: usize = 4;
pub type Set = [u64; WORDS];
pub const EMPTY: Set = [0; WORDS];

#[inline(always)]
pub fn has(set: &Set, row: u16) -> bool {
    set[(row >> 6) as usize] >> (row & 63) & 1 == 1
}

#[inline(always)]
pub fn insert(set: &mut Set, row: u16) {
    set[(row >> 6) as usize] |= 1 << (row & 63);
}

#[inline(always)]
pub fn only(row: u16) -> Set {
    let mut set = EMPTY;
    insert(&mut set, row);
    set
}

#[inline(always)]
pub fn both(left: &Set, right: &Set) -> Set {
    let mut set = *left;
    for word in 0..WORDS {
        set[word] &= right[word];
    }
    set
}

#[inline(always)]
pub fn add_all(set: &mut Set, other: &Set) {
    for word in 0..WORDS {
        set[word] |= other[word];
    }
}

#[inline(always)]
pub fn size(set: &Set) -> u32 {
    set.iter().map(|word| word.count_ones()).sum()
}

/// The rows of a set, rising.
#[inline(always)]
pub fn rows(set: &Set) -> impl Iterator<Item = u16> {
    let mut left = *set;
    let mut word = 0;
    std::iter::from_fn(move || {
        while word < WORDS && left[word] == 0 {
            word += 1;
        }
        if word == WORDS {
            return None;
        }
        let row = 64 * word as u16 + left[word].trailing_zeros() as u16;
        left[word] &= left[word] - 1;
        Some(row)
    })
}
