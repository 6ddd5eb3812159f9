//! The workloads: texts of full tables, named FAMILY-WHAT.
//!
//! ledger-    lines with payee, currency and work, under rules of 2 to 4 variables; the breach early, late or absent
//! deep-      chains that fold, and congruences that wake one another
//! wide-      patterns of four variables
//! differ-    only differences
//! follow-    differences that follow, and pairs of rows that do not differ
//! norm-      for the normaliser

use crate::ledger::{nested, over, rule, Ledger, Literal, Random, Term, FULL};
use Literal::{Equal, Unequal};

pub struct Workload {
    pub name: String,
    pub normalise: bool,
    pub text: Vec<u8>,
}

const PAYEE: u16 = 0x20;
const CURRENCY: u16 = 0x21;
const WORK: u16 = 0x22;
const PARENT: u16 = 0x23;
const F: u16 = 0x30;
const G: u16 = 0x31;
const H: u16 = 0x32;
const CONSTANTS: u16 = 0x100;
const SEED: u64 = 1;

#[derive(Clone, Copy, PartialEq)]
enum Breach {
    Absent,
    Early,
    Late,
}

const PLACES: [(&str, Breach); 3] = [("none", Breach::Absent), ("early", Breach::Early), ("late", Breach::Late)];

pub fn workloads() -> Vec<Workload> {
    let mut all = Vec::new();
    let mut add = |name: &str, context: &Ledger, literals: &[Literal]| {
        all.push(Workload { name: name.to_string(), normalise: false, text: (context.text() + &rule(literals)).into_bytes() });
    };
    for (place, breach) in PLACES {
        for (name, literals) in ledger_rules() {
            add(&format!("ledger-{}-{}", name, place), &ledger(breach, name == "parents"), &literals);
        }
    }
    for (place, breach) in PLACES {
        add(&format!("wide-few-{}", place), &crossing(24, breach), &crossing_rule(2, breach));
        add(&format!("wide-one-{}", place), &crossing(100, breach), &crossing_rule(1, breach));
        add(&format!("wide-two-{}", place), &crossing(100, breach), &crossing_rule(2, breach));
    }
    add("wide-latin-none", &latin(false), &crossing_rule(2, Breach::Late));
    add("wide-latin-late", &latin(true), &crossing_rule(2, Breach::Late));
    for (name, context, literals) in deep() {
        add(&format!("deep-{}", name), &context, &literals);
    }
    for (name, context, literals) in differing() {
        add(&format!("differ-{}", name), &context, &literals);
    }
    for (name, context, literals) in following() {
        add(&format!("follow-{}", name), &context, &literals);
    }
    for (name, context) in
        [("ledger", ledger(Breach::Absent, false)), ("fold", folded()), ("cascade", cascade()), ("full", full())]
    {
        all.push(Workload { name: format!("norm-{}", name), normalise: true, text: context.text().into_bytes() });
    }
    all
}

fn variable(number: u8) -> Term {
    Term::Variable(number)
}

fn ledger_rules() -> Vec<(&'static str, Vec<Literal>)> {
    let [x, y, z, w] = [0, 1, 2, 3].map(variable);
    let of = |symbol: u16, term: &Term| over(symbol, &[term.clone()]);
    let two = vec![Equal(of(PAYEE, &x), y.clone()), Unequal(of(CURRENCY, &x), of(CURRENCY, &y))];
    let three =
        vec![Equal(of(PAYEE, &x), y.clone()), Equal(of(PARENT, &y), z.clone()), Unequal(of(CURRENCY, &x), of(CURRENCY, &z))];
    let four = vec![
        Equal(of(WORK, &x), z.clone()),
        Equal(of(WORK, &y), z.clone()),
        Equal(of(PAYEE, &x), w.clone()),
        Equal(of(PAYEE, &y), w.clone()),
        Unequal(of(CURRENCY, &x), of(CURRENCY, &y)),
    ];
    let parents = vec![
        Equal(of(WORK, &x), of(WORK, &y)),
        Equal(of(PARENT, &of(PAYEE, &x)), z.clone()),
        Equal(of(PARENT, &of(PAYEE, &y)), w.clone()),
        Unequal(of(CURRENCY, &z), of(CURRENCY, &w)),
    ];
    vec![("two", two), ("three", three), ("four", four), ("parents", parents)]
}

const CURRENCIES: usize = 6;
const PAYEES: usize = 15;
const WORKS: usize = 2 * CURRENCIES;

/// Payees with a currency and a parent of the same currency, some of them merged; neighbouring lines share work and payee.
/// One line is at fault: in its own currency, or in its payee.
fn ledger(breach: Breach, by_payee: bool) -> Ledger {
    let (mut ledger, mut random) = (Ledger::default(), Random(SEED));
    let currencies = ledger.rows(0x4000, CURRENCIES);
    for (index, left) in currencies.iter().enumerate() {
        currencies[..index].iter().for_each(|right| ledger.part(*left, *right));
    }
    let payees = ledger.rows(0x2000, PAYEES);
    for (index, payee) in payees.iter().enumerate() {
        let currency = ledger.row(CURRENCY, &[*payee]);
        ledger.equate(currency, currencies[index % CURRENCIES]);
        let parent = ledger.row(PARENT, &[*payee]);
        ledger.equate(parent, payees[random.below(index / CURRENCIES + 1) * CURRENCIES + index % CURRENCIES]);
    }
    for index in [0, 1, 2] {
        ledger.equate(payees[index], payees[index + CURRENCIES]);
    }
    let works = ledger.rows(0x5000, WORKS);
    add_lines(&mut ledger, &mut random, (&currencies, &payees, &works), breach, by_payee);
    ledger
}

fn add_lines(
    ledger: &mut Ledger,
    random: &mut Random,
    (currencies, payees, works): (&[usize], &[usize], &[usize]),
    breach: Breach,
    by_payee: bool,
) {
    let lines = ledger.left() / 4;
    let faulty = match breach {
        Breach::Absent => lines,
        Breach::Early => 1,
        Breach::Late => (lines - 2) | 1,
    };
    let mut kept = (0, 0);
    for line in 0..lines {
        let group = line / 2 % CURRENCIES;
        if line % 2 == 0 {
            kept = (group + CURRENCIES * random.below(2), line / 2 % WORKS);
        }
        let wrong = usize::from(line == faulty);
        let payee = if by_payee { (kept.0 + wrong) % PAYEES } else { kept.0 };
        let currency = if by_payee { payee % CURRENCIES } else { (group + wrong) % CURRENCIES };
        let row = ledger.row(0x1000 + line as u16, &[]);
        for (symbol, value) in [(PAYEE, payees[payee]), (CURRENCY, currencies[currency]), (WORK, works[kept.1])] {
            let over = ledger.row(symbol, &[row]);
            ledger.equate(over, value);
        }
    }
}

/// Rows over four of the later constants each, every one equal to one of the first.
fn crossing(count: usize, breach: Breach) -> Ledger {
    let (mut ledger, mut random) = (Ledger::default(), Random(SEED));
    let constants = ledger.rows(CONSTANTS, count);
    while ledger.left() > 2 {
        let arguments = [0; 4].map(|_| random.pick(&constants[count / 2 + 4..]));
        let (symbol, values) = if ledger.left() % 3 == 0 { (H, [1, 9, 10]) } else { (G, [0, 2, 3]) };
        let row = ledger.row(symbol, &arguments);
        ledger.equate(row, constants[random.pick(&values)]);
    }
    let first = if breach == Breach::Early { count / 2 } else { count - 4 };
    if breach != Breach::Absent {
        add_crossing(&mut ledger, &constants[first..first + 4], constants[0], constants[1]);
    }
    ledger
}

/// g over four rows, and h over them the other way round.
fn add_crossing(ledger: &mut Ledger, rows: &[usize], of_g: usize, of_h: usize) {
    let backward: Vec<usize> = rows.iter().rev().copied().collect();
    let (g, h) = (ledger.row(G, rows), ledger.row(H, &backward));
    ledger.equate(g, of_g);
    ledger.equate(h, of_h);
}

/// g(x, y, z, w) is the first constant, and h(w, z, y, x) the second. Alone and absent, it asks for a constant that no g is.
fn crossing_rule(literals: usize, breach: Breach) -> Vec<Literal> {
    let [x, y, z, w] = [0, 1, 2, 3].map(variable);
    let value = if literals == 1 && breach == Breach::Absent { 1 } else { 0 };
    let g = over(G, &[x.clone(), y.clone(), z.clone(), w.clone()]);
    let mut all = vec![Equal(g, over(CONSTANTS + value, &[]))];
    if literals == 2 {
        all.push(Equal(over(H, &[w, z, y, x]), over(CONSTANTS + 1, &[])));
    }
    all
}

/// Each literal alone leaves every variable all its candidates, and no choice meets both; `late`: the last one does.
fn latin(late: bool) -> Ledger {
    let mut ledger = Ledger::default();
    let values = ledger.rows(CONSTANTS, 2);
    let size = FULL / 4 - 2;
    let constants = ledger.rows(CONSTANTS + 2, size);
    let at = |index: usize| constants[index % size];
    for index in 0..size {
        let g = ledger.row(G, &[at(index), at(index + 1), at(index + 2), at(index + 3)]);
        let h = ledger.row(H, &[at(index + 4), at(index + 2), at(index + 1), at(index)]);
        ledger.equate(g, values[0]);
        ledger.equate(h, values[1]);
    }
    if late {
        let h = ledger.row(H, &[at(size + 2), at(size + 1), at(size), at(size - 1)]);
        ledger.equate(h, values[1]);
    }
    ledger
}

fn deep() -> Vec<(&'static str, Ledger, Vec<Literal>)> {
    let [x, y] = [0, 1].map(variable);
    let apart = || Unequal(x.clone(), y.clone());
    let wrapped =
        vec![Equal(nested(F, 40, &x), y.clone()), Equal(nested(F, 15, &y), x.clone()), Equal(x.clone(), over(CONSTANTS, &[]))];
    vec![
        ("fold", folded(), vec![Equal(nested(F, 60, &x), y.clone()), apart()]),
        ("wrap", chain(&[(254, 85), (199, 85)]), wrapped),
        ("cascade", cascade(), vec![Equal(nested(F, 50, &x), nested(F, 3, &y)), apart()]),
    ]
}

fn chain(equations: &[(usize, usize)]) -> Ledger {
    let mut ledger = Ledger::default();
    let mut row = ledger.row(CONSTANTS, &[]);
    while ledger.left() > 0 {
        row = ledger.row(F, &[row]);
    }
    equations.iter().for_each(|pair| ledger.equate(pair.0, pair.1));
    ledger
}

/// Two lengths of Fibonacci: the chain folds onto its first row by as many steps as there can be.
fn folded() -> Ledger {
    chain(&[(233, 0), (144, 0)])
}

/// One congruence wakes the next, and a pass over the rows finds one at a time.
fn cascade() -> Ledger {
    let mut ledger = Ledger::default();
    let steps = FULL / 4;
    let (left, right) = (ledger.rows(CONSTANTS, steps), ledger.rows(0x800, steps));
    for step in (0..steps).rev() {
        for side in [&left, &right] {
            let over = ledger.row(F, &[side[step]]);
            if step + 1 < steps {
                ledger.equate(over, side[step + 1]);
            }
        }
    }
    ledger.equate(left[0], right[0]);
    let others = ledger.rows(0xF000, 2);
    ledger.part(others[0], others[1]);
    ledger
}

fn differing() -> Vec<(&'static str, Ledger, Vec<Literal>)> {
    let [x, y, z, w] = [0, 1, 2, 3].map(variable);
    let unequal = |left: &Term, right: &Term| Unequal(left.clone(), right.clone());
    let g = |left: &Term, right: &Term| over(G, &[left.clone(), right.clone()]);
    let pair = vec![unequal(&x, &y), unequal(&y, &x)];
    let triangle = vec![unequal(&y, &z), unequal(&z, &w), unequal(&w, &y)];
    let four = vec![unequal(&x, &y), unequal(&x, &z), unequal(&x, &w), unequal(&y, &z), unequal(&y, &w), unequal(&z, &w)];
    let open = vec![Unequal(g(&x, &y), g(&y, &z)), Unequal(g(&y, &z), g(&x, &z)), Unequal(g(&x, &z), g(&x, &y))];
    vec![
        ("pair-late", two_parts(), pair),
        ("triangle-none", two_parts(), triangle),
        ("four-none", three_parts(), four),
        ("over-pairs-none", over_pairs(), open),
    ]
}

/// A rule of one unequal literal has no breach where no difference is stated. With one, `h(x) = h(y)` shuts its rows out.
fn following() -> Vec<(&'static str, Ledger, Vec<Literal>)> {
    let [x, y] = [0, 1].map(variable);
    let of = |symbol: u16, term: &Term| over(symbol, &[term.clone()]);
    let unequal = || Unequal(x.clone(), y.clone());
    let never = || vec![unequal(), Equal(of(H, &x), of(H, &y))];
    let payees = vec![Equal(of(WORK, &x), of(WORK, &y)), Unequal(of(PAYEE, &x), of(PAYEE, &y))];
    vec![
        ("unrelated-none", unrelated(false), vec![unequal()]),
        ("one-symbol-none", chain(&[]), vec![unequal()]),
        ("unrelated-stated-none", unrelated(true), never()),
        ("over-constants-stated-none", over_constants(), never()),
        ("payees-none", ledger(Breach::Absent, true), payees.clone()),
        ("payees-late", ledger(Breach::Late, true), payees),
    ]
}

/// Rows that no other row is over; `stated`: the last two are different.
fn unrelated(stated: bool) -> Ledger {
    let mut ledger = Ledger::default();
    ledger.rows(CONSTANTS, FULL);
    if stated {
        ledger.part(FULL - 2, FULL - 1);
    }
    ledger
}

/// One symbol over each of many constants, and two other rows that are different: no two constants are.
fn over_constants() -> Ledger {
    let mut ledger = Ledger::default();
    let others = ledger.rows(0xF000, 2);
    ledger.part(others[0], others[1]);
    for constant in ledger.rows(CONSTANTS, ledger.left() / 2) {
        ledger.row(F, &[constant]);
    }
    ledger
}

/// The last rows, in two parts that differ from one another: no three rows are pairwise apart.
fn two_parts() -> Ledger {
    let mut ledger = Ledger::default();
    let rows = ledger.rows(CONSTANTS, FULL);
    let (left, right) = (&rows[FULL - 30..FULL - 15], &rows[FULL - 15..]);
    left.iter().for_each(|left| right.iter().for_each(|right| ledger.part(*left, *right)));
    ledger
}

/// Three parts: many triangles, and no four rows pairwise apart.
fn three_parts() -> Ledger {
    let mut ledger = Ledger::default();
    let rows = ledger.rows(CONSTANTS, FULL);
    for left in 0..27 {
        for right in 0..left {
            if left % 3 != right % 3 {
                ledger.part(rows[FULL - 1 - left], rows[FULL - 1 - right]);
            }
        }
    }
    ledger
}

/// Binary rows, of which one half differs from the other.
fn over_pairs() -> Ledger {
    let (mut ledger, mut random) = (Ledger::default(), Random(SEED));
    let constants = ledger.rows(CONSTANTS, 60);
    let mut pairs = Vec::new();
    while ledger.left() > 0 {
        pairs.push(ledger.row(G, &[random.pick(&constants), random.pick(&constants)]));
    }
    let half = pairs.len() / 2;
    for _ in 0..250 {
        let (left, right) = (random.pick(&pairs[..half]), random.pick(&pairs[half..]));
        ledger.part(left, right);
    }
    ledger
}

/// Many merges and many differences, repeated and in both orientations.
fn full() -> Ledger {
    let (mut ledger, mut random) = (Ledger::default(), Random(SEED));
    let constants = ledger.rows(CONSTANTS, 80);
    let untouched = ledger.rows(0xF000, 20);
    let mut over = Vec::new();
    while ledger.left() > 0 {
        over.push(ledger.row(0x10 + random.below(8) as u16, &[random.pick(&constants), random.pick(&constants)]));
    }
    for _ in 0..60 {
        ledger.equate(random.pick(&constants), random.pick(&constants));
        ledger.equate(random.pick(&over), random.pick(&constants));
    }
    for _ in 0..FULL {
        let (left, right) = (random.below(20), random.below(20));
        let pair = (untouched[left], if left == right { random.pick(&over) } else { untouched[right] });
        ledger.part(pair.0, pair.1);
    }
    ledger
}
