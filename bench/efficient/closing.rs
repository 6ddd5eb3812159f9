//! Congruence closure by a work list: the smaller class moves, and only rows over a moved class are looked up again.

use crate::text::{Row, NO_ROW};

/// A symbol over classes, as one number.
#[inline(always)]
pub fn signature(symbol: u16, classes: [u16; 4]) -> u64 {
    let [a, b, c, d] = classes.map(u64::from);
    u64::from(symbol) << 48 | a << 36 | b << 24 | c << 12 | d
}

/// A hash table from signatures to rows or classes.
pub struct Signatures {
    keys: Vec<u64>,
    values: Vec<u16>,
    used: usize,
    shift: u32,
}

impl Signatures {
    pub fn with_room_for(entries: usize) -> Signatures {
        let places = (2 * entries + 16).next_power_of_two();
        Signatures { keys: vec![0; places], values: vec![NO_ROW; places], used: 0, shift: 64 - places.trailing_zeros() }
    }

    #[inline(always)]
    fn place(&self, key: u64) -> usize {
        let mut place = ((key ^ key >> 29).wrapping_mul(0x9E37_79B9_7F4A_7C15) >> self.shift) as usize;
        while self.values[place] != NO_ROW && self.keys[place] != key {
            place = (place + 1) & (self.keys.len() - 1);
        }
        place
    }

    #[inline(always)]
    pub fn get(&self, key: u64) -> u16 {
        self.values[self.place(key)]
    }

    /// The value that was there; or NO_ROW, and the new one is there now.
    #[inline(always)]
    pub fn put(&mut self, key: u64, value: u16) -> u16 {
        let place = self.place(key);
        let old = self.values[place];
        if old == NO_ROW {
            self.keys[place] = key;
            self.values[place] = value;
            self.used += 1;
        }
        old
    }

    fn crowded(&self) -> bool {
        4 * self.used > 3 * self.keys.len()
    }
}

/// The argument classes of a row.
#[inline(always)]
pub fn over_classes(row: &Row, class: &[u16]) -> [u16; 4] {
    let mut classes = row.arguments;
    for place in 0..row.count as usize {
        classes[place] = class[classes[place] as usize];
    }
    classes
}

const END: u16 = u16::MAX;

struct Closing<'a> {
    rows: &'a [Row],
    class: Vec<u16>,
    /// The members of a class, in a ring.
    next: Vec<u16>,
    size: Vec<u16>,
    /// The rows over a class: a list of cells (row, next cell).
    first_use: Vec<u16>,
    last_use: Vec<u16>,
    uses: Vec<(u16, u16)>,
    signatures: Signatures,
    work: Vec<(u16, u16)>,
}

/// For each row the lowest row equal to it.
pub fn close(rows: &[Row], equations: &[(u16, u16)]) -> Vec<u16> {
    let mut closing = Closing::of(rows, equations);
    while let Some((left, right)) = closing.work.pop() {
        closing.join(left, right);
    }
    lowest(&closing.class)
}

fn lowest(class: &[u16]) -> Vec<u16> {
    let mut first = vec![END; class.len()];
    let mut lowest = Vec::with_capacity(class.len());
    for (row, name) in class.iter().enumerate() {
        let first = &mut first[*name as usize];
        if *first == END {
            *first = row as u16;
        }
        lowest.push(*first);
    }
    lowest
}

impl<'a> Closing<'a> {
    fn of(rows: &'a [Row], equations: &[(u16, u16)]) -> Closing<'a> {
        let own: Vec<u16> = (0..rows.len() as u16).collect();
        let mut work = Vec::with_capacity(rows.len() + equations.len());
        work.extend(equations.iter().rev());
        let mut closing = Closing {
            rows,
            next: own.clone(),
            class: own,
            size: vec![1; rows.len()],
            first_use: vec![END; rows.len()],
            last_use: vec![END; rows.len()],
            uses: Vec::with_capacity(2 * rows.len()),
            signatures: Signatures::with_room_for(rows.len()),
            work,
        };
        closing.enter_rows();
        closing
    }

    fn enter_rows(&mut self) {
        for (number, row) in self.rows.iter().enumerate() {
            for argument in &row.arguments[..row.count as usize] {
                self.enter_use(*argument as usize, number as u16);
            }
            self.look_up(number as u16, row.arguments);
        }
    }

    fn enter_use(&mut self, class: usize, row: u16) {
        let cell = self.uses.len() as u16;
        self.uses.push((row, self.first_use[class]));
        if self.first_use[class] == END {
            self.last_use[class] = cell;
        }
        self.first_use[class] = cell;
    }

    /// Enters a row under its signature, or notes that another row has it.
    #[inline(always)]
    fn look_up(&mut self, row: u16, classes: [u16; 4]) {
        let other = self.signatures.put(signature(self.rows[row as usize].symbol, classes), row);
        if other != NO_ROW && self.class[other as usize] != self.class[row as usize] {
            self.work.push((other, row));
        }
    }

    #[inline(always)]
    fn join(&mut self, left: u16, right: u16) {
        let (a, b) = (self.class[left as usize] as usize, self.class[right as usize] as usize);
        if a == b {
            return;
        }
        let (small, large) = if self.size[a] > self.size[b] { (b, a) } else { (a, b) };
        self.move_members(small, large);
        self.look_up_uses(small);
        self.move_uses(small, large);
    }

    #[inline(always)]
    fn move_members(&mut self, small: usize, large: usize) {
        let mut member = small;
        loop {
            self.class[member] = large as u16;
            member = self.next[member] as usize;
            if member == small {
                break;
            }
        }
        self.next.swap(small, large);
        self.size[large] += self.size[small];
    }

    #[inline(always)]
    fn look_up_uses(&mut self, class: usize) {
        let mut cell = self.first_use[class];
        while cell != END {
            let (row, after) = self.uses[cell as usize];
            if self.signatures.crowded() {
                self.rebuild();
            }
            self.look_up(row, over_classes(&self.rows[row as usize], &self.class));
            cell = after;
        }
    }

    /// A table without the signatures that no row has any more.
    fn rebuild(&mut self) {
        self.signatures = Signatures::with_room_for(2 * self.rows.len());
        for row in 0..self.rows.len() {
            self.look_up(row as u16, over_classes(&self.rows[row], &self.class));
        }
    }

    fn move_uses(&mut self, small: usize, large: usize) {
        if self.first_use[small] == END {
            return;
        }
        if self.first_use[large] == END {
            self.first_use[large] = self.first_use[small];
        } else {
            self.uses[self.last_use[large] as usize].1 = self.first_use[small];
        }
        self.last_use[large] = self.last_use[small];
    }
}
