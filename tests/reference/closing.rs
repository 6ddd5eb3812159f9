//! Equality by a naive congruence closure: a class for each term, merged until nothing changes.

use crate::text::{Pair, Row};

/// For each term the lowest term equal to it.
pub fn close(terms: &[Row], equations: &[Pair]) -> Vec<usize> {
    let mut class: Vec<usize> = (0..terms.len()).collect();
    for &(left, right) in equations {
        merge(&mut class, left, right);
    }
    while join_alike(&mut class, terms) {}
    class
}

/// Puts two classes under the lower of their names.
pub fn merge(class: &mut [usize], left: usize, right: usize) {
    let kept = class[left].min(class[right]);
    let gone = class[left].max(class[right]);
    for name in class.iter_mut().filter(|name| **name == gone) {
        *name = kept;
    }
}

/// One pass over all pairs of terms. Whether two classes became one.
fn join_alike(class: &mut [usize], terms: &[Row]) -> bool {
    let mut changed = false;
    for right in 0..terms.len() {
        for left in 0..right {
            if class[left] != class[right] && alike(class, &terms[left], &terms[right]) {
                merge(class, left, right);
                changed = true;
            }
        }
    }
    changed
}

/// The same symbol over equal arguments.
pub fn alike(class: &[usize], left: &Row, right: &Row) -> bool {
    left.symbol == right.symbol
        && left.arguments.len() == right.arguments.len()
        && left.arguments.iter().zip(&right.arguments).all(|(a, b)| class[*a] == class[*b])
}

/// Whether two terms differ: one equation more, that of the two, would make the sides of a stated difference equal.
pub fn differ(terms: &[Row], equations: &[Pair], differences: &[Pair], left: usize, right: usize) -> bool {
    let more = [equations, &[(left, right)]].concat();
    first_clash(&close(terms, &more), differences).is_some()
}

/// Kept apart: a stated difference, up to equality, in either orientation. Terms that are kept apart differ.
pub fn apart(class: &[usize], differences: &[Pair], left: usize, right: usize) -> bool {
    let equal = |a: usize, b: usize| class[a] == class[b];
    differences.iter().any(|&(p, q)| (equal(left, p) && equal(right, q)) || (equal(left, q) && equal(right, p)))
}

/// The ordinal, from 1, of the first stated difference with equal sides.
pub fn first_clash(class: &[usize], differences: &[Pair]) -> Option<usize> {
    let clash = differences.iter().position(|&(p, q)| class[p] == class[q]);
    clash.map(|index| index + 1)
}
