//! Inputs of `verify` at the limit of its steps, too long to be kept, with their replies.

use reference::grounds::{Conclusion, Name, Step, STEP_LIMIT};
use reference::writing::{conclusion_line, step_line};

/// A constant, and the rule that it is equal to itself.
const TEXT: &[u8] = b"01000100\n0400\n060000\n080100\n";
/// Two constants that are stated different, and the rule that they are.
const UNEQUAL: &[u8] = b"01000100\n01000200\n030001\n0400\n0401\n070001\n08020001\n";

pub struct Edge {
    pub name: &'static str,
    pub input: Vec<u8>,
    pub reply: &'static [u8],
}

pub fn edges() -> Vec<Edge> {
    let empty = |lines: usize| vec![b'\n'; lines];
    let edge = |name, reply, input| Edge { name, input, reply };
    vec![
        edge("as many bad steps as are taken", b"0B0200000001\n", [TEXT, &empty(STEP_LIMIT)].concat()),
        edge("a bad step too many", b"0A0B00000000\n", [TEXT, &empty(STEP_LIMIT + 1)].concat()),
        edge("a step too many for a text that is refused", b"0A0B00000000\n", [b"08\n", &empty(STEP_LIMIT + 1)[..]].concat()),
        edge("as many good steps as are taken, and more conclusions", b"0B00\n", good(STEP_LIMIT)),
        edge("a good step too many", b"0A0B00000000\n", good(STEP_LIMIT + 1)),
        edge("as many steps of one literal's own as are taken", b"0B00\n", owned(STEP_LIMIT)),
        edge("a step of a literal's own too many", b"0A0B00000000\n", owned(STEP_LIMIT + 1)),
    ]
}

/// Good steps, each between two conclusions, of which the first counts and cites the last step.
fn good(steps: usize) -> Vec<u8> {
    let instance = Name { mark: 1, row: 0 };
    let step = step_line(&Step { owner: 0, kind: 2, left: instance, right: instance, numbers: [0; 4] });
    let conclusion = |first: usize| conclusion_line(&Conclusion { literal: 1, first, ..Conclusion::default() });
    [TEXT, &conclusion(steps), &[step, conclusion(0)].concat().repeat(steps)].concat()
}

/// Steps of one literal's own, each its added equation, and a conclusion by the last.
fn owned(steps: usize) -> Vec<u8> {
    let [left, right] = [0, 1].map(|row| Name { mark: 1, row });
    let step = step_line(&Step { owner: 1, kind: 6, left, right, numbers: [0; 4] });
    let conclusion = Conclusion { literal: 1, first: steps, difference: 1, ..Conclusion::default() };
    [UNEQUAL, &step.repeat(steps), &conclusion_line(&conclusion)].concat()
}
