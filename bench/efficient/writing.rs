//! The normal text, written into lent bytes.

use crate::text::{refusal, Refusal, Text};

const LINE: usize = 7;

pub fn write_normal(bytes: &[u8], text: &Text, representatives: &[u16], lent: &mut [u8]) -> Result<usize, Refusal> {
    let merged = representatives.iter().enumerate().filter(|(row, lowest)| *row != **lowest as usize).count();
    let differences = sorted_differences(text, representatives);
    let need = text.rows_end + LINE * (merged + differences.len());
    if need > lent.len() {
        return Err(refusal(10, 0));
    }
    lent[..text.rows_end].copy_from_slice(&bytes[..text.rows_end]);
    let mut lines = lent[text.rows_end..need].chunks_exact_mut(LINE);
    for (row, lowest) in representatives.iter().enumerate() {
        if row != *lowest as usize {
            write_pair(lines.next().expect("a line for each"), b'2', *lowest, row as u16);
        }
    }
    for (left, right) in differences {
        write_pair(lines.next().expect("a line for each"), b'3', left, right);
    }
    Ok(need)
}

fn sorted_differences(text: &Text, representatives: &[u16]) -> Vec<(u16, u16)> {
    let lower_first = |&(left, right): &(u16, u16)| {
        let (left, right) = (representatives[left as usize], representatives[right as usize]);
        (left.min(right), left.max(right))
    };
    let mut pairs: Vec<(u16, u16)> = text.differences.iter().map(lower_first).collect();
    pairs.sort_unstable();
    pairs.dedup();
    pairs
}

#[inline(always)]
fn write_pair(line: &mut [u8], kind: u8, left: u16, right: u16) {
    let digit = |value: u16| b"0123456789ABCDEF"[value as usize & 15];
    line.copy_from_slice(&[b'0', kind, digit(left >> 4), digit(left), digit(right >> 4), digit(right), b'\n']);
}
