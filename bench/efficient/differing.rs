//! Classes that differ: one equation more is followed through the facts of a closed table until the sides of a stated difference
//! meet or nothing is left to join, and then taken back. Each pair is followed at most once.

use crate::closing::{signature, Signatures};
use crate::model::Fact;
use crate::sets::{add_all, both, has, insert, rows, Set, EMPTY};
use crate::text::NO_ROW;

pub struct Differing {
    /// The facts over a class stand in `uses` from the class's place to the next one's.
    first_use: Vec<u16>,
    uses: Vec<u16>,
    /// The classes that stand at one place of one symbol with a class. Equations of others give no congruence.
    beside: Vec<Set>,
    /// The classes from which a side of a difference is reached through the facts over them.
    live: Set,
    known: Vec<Set>,
    differing: Vec<Set>,
    name: Vec<u16>,
    members: Vec<Set>,
    /// How many facts are over the members.
    weight: Vec<u16>,
    apart: Vec<Set>,
    joined: Vec<Joined>,
    work: Vec<(u16, u16)>,
    entered: Entered,
}

/// What a class was before another one came to it.
struct Joined {
    large: u16,
    small: u16,
    members: Set,
    weight: u16,
    apart: Set,
}

impl Differing {
    pub fn of(facts: &[Fact], apart: &[Set]) -> Differing {
        let classes = apart.len();
        let mut differing = Differing {
            first_use: vec![0; classes + 1],
            uses: Vec::with_capacity(2 * facts.len()),
            beside: vec![EMPTY; classes],
            live: EMPTY,
            known: vec![EMPTY; classes],
            differing: vec![EMPTY; classes],
            name: (0..classes as u16).collect(),
            members: vec![EMPTY; classes],
            weight: vec![0; classes],
            apart: apart.to_vec(),
            joined: Vec::new(),
            work: Vec::new(),
            entered: Entered::with_places(256),
        };
        (0..classes).for_each(|class| insert(&mut differing.members[class], class as u16));
        differing.enter_uses(facts);
        differing.enter_beside(facts);
        differing.enter_live(facts);
        differing
    }

    fn enter_uses(&mut self, facts: &[Fact]) {
        for argument in facts.iter().flat_map(arguments) {
            self.first_use[argument as usize + 1] += 1;
        }
        self.weight.copy_from_slice(&self.first_use[1..]);
        for class in 1..self.first_use.len() {
            self.first_use[class] += self.first_use[class - 1];
        }
        let mut next = self.first_use.clone();
        self.uses.resize(next[next.len() - 1] as usize, 0);
        for (number, fact) in facts.iter().enumerate() {
            for argument in arguments(fact) {
                let place = &mut next[argument as usize];
                self.uses[*place as usize] = number as u16;
                *place += 1;
            }
        }
    }

    /// The facts are sorted by symbol.
    fn enter_beside(&mut self, facts: &[Fact]) {
        let mut first = 0;
        while first < facts.len() {
            let of_symbol = facts[first..].iter().take_while(|fact| fact.symbol == facts[first].symbol).count();
            let group = &facts[first..first + of_symbol];
            for place in 0..arguments(&group[0]).count() {
                let mut together = EMPTY;
                group.iter().for_each(|fact| insert(&mut together, fact.arguments[place]));
                group.iter().for_each(|fact| add_all(&mut self.beside[fact.arguments[place] as usize], &together));
            }
            first += of_symbol;
        }
    }

    fn enter_live(&mut self, facts: &[Fact]) {
        for (class, apart) in self.apart.iter().enumerate().filter(|(_, apart)| **apart != EMPTY) {
            insert(&mut self.live, class as u16);
            add_all(&mut self.live, apart);
        }
        loop {
            let before = self.live;
            for fact in facts.iter().rev().filter(|fact| has(&before, fact.class)) {
                arguments(fact).for_each(|argument| insert(&mut self.live, argument));
            }
            if self.live == before {
                return;
            }
        }
    }

    /// Whether two classes differ that no stated difference keeps apart.
    pub fn ask(&mut self, facts: &[Fact], signatures: &Signatures, left: u16, right: u16) -> bool {
        if !has(&self.beside[left as usize], right) || !(has(&self.live, left) || has(&self.live, right)) {
            return false;
        }
        if !has(&self.known[left as usize], right) {
            let clash = self.follow(facts, signatures, left, right);
            self.take_back();
            for (one, other) in [(left, right), (right, left)] {
                insert(&mut self.known[one as usize], other);
                if clash {
                    insert(&mut self.differing[one as usize], other);
                }
            }
        }
        has(&self.differing[left as usize], right)
    }

    fn follow(&mut self, facts: &[Fact], signatures: &Signatures, left: u16, right: u16) -> bool {
        self.work.push((left, right));
        while let Some((one, other)) = self.work.pop() {
            let (one, other) = (self.name[one as usize], self.name[other as usize]);
            if one == other {
                continue;
            }
            if both(&self.members[one as usize], &self.apart[other as usize]) != EMPTY {
                return true;
            }
            let lighter = self.weight[one as usize] < self.weight[other as usize];
            let (small, large) = if lighter { (one, other) } else { (other, one) };
            self.join(small, large);
            self.look_up_uses(facts, signatures, small);
        }
        false
    }

    fn join(&mut self, small: u16, large: u16) {
        let (from, to) = (small as usize, large as usize);
        self.joined.push(Joined { large, small, members: self.members[to], weight: self.weight[to], apart: self.apart[to] });
        let (moved, apart) = (self.members[from], self.apart[from]);
        rows(&moved).for_each(|member| self.name[member as usize] = large);
        add_all(&mut self.members[to], &moved);
        self.weight[to] += self.weight[from];
        add_all(&mut self.apart[to], &apart);
    }

    fn look_up_uses(&mut self, facts: &[Fact], signatures: &Signatures, moved: u16) {
        for member in rows(&self.members[moved as usize]) {
            for place in self.first_use[member as usize]..self.first_use[member as usize + 1] {
                let fact = &facts[self.uses[place as usize] as usize];
                let named = fact.arguments.map(|argument| if argument == NO_ROW { NO_ROW } else { self.name[argument as usize] });
                let key = signature(fact.symbol, named);
                let stated = signatures.get(key);
                let other = if stated == NO_ROW { self.entered.put(key, fact.class) } else { stated };
                if self.name[other as usize] != self.name[fact.class as usize] {
                    self.work.push((other, fact.class));
                }
            }
        }
    }

    fn take_back(&mut self) {
        while let Some(joined) = self.joined.pop() {
            rows(&self.members[joined.small as usize]).for_each(|member| self.name[member as usize] = joined.small);
            self.members[joined.large as usize] = joined.members;
            self.weight[joined.large as usize] = joined.weight;
            self.apart[joined.large as usize] = joined.apart;
        }
        self.work.clear();
        self.entered.clear();
    }
}

fn arguments(fact: &Fact) -> impl Iterator<Item = u16> + '_ {
    fact.arguments.iter().copied().take_while(|argument| *argument != NO_ROW)
}

/// Signatures that facts have while an equation is followed.
struct Entered {
    keys: Vec<u64>,
    values: Vec<u16>,
    used: Vec<u16>,
}

impl Entered {
    fn with_places(places: usize) -> Entered {
        Entered { keys: vec![0; places], values: vec![NO_ROW; places], used: Vec::with_capacity(places / 2) }
    }

    /// The class that has the signature: the one that was there, or the new one.
    fn put(&mut self, key: u64, class: u16) -> u16 {
        if 2 * self.used.len() == self.keys.len() {
            self.grow();
        }
        let last = self.keys.len() - 1;
        let mut place = (key ^ key >> 29).wrapping_mul(0x9E37_79B9_7F4A_7C15) as usize >> 40 & last;
        while self.values[place] != NO_ROW && self.keys[place] != key {
            place = (place + 1) & last;
        }
        if self.values[place] == NO_ROW {
            self.keys[place] = key;
            self.values[place] = class;
            self.used.push(place as u16);
        }
        self.values[place]
    }

    fn grow(&mut self) {
        let old = std::mem::replace(self, Entered::with_places(2 * self.keys.len()));
        for place in &old.used {
            self.put(old.keys[*place as usize], old.values[*place as usize]);
        }
    }

    fn clear(&mut self) {
        for place in self.used.drain(..) {
            self.values[place as usize] = NO_ROW;
        }
    }
}
