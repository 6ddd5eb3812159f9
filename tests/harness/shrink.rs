//! A shorter text that still shows a difference: lines, then bytes, are left out as long as it does.

pub fn shrunk(text: &[u8], differs: impl Fn(&[u8]) -> bool) -> Vec<u8> {
    let mut lines: Vec<Vec<u8>> = text.split_inclusive(|byte| *byte == b'\n').map(<[u8]>::to_vec).collect();
    let mut place = lines.len();
    while place > 0 {
        place -= 1;
        let mut fewer = lines.clone();
        fewer.remove(place);
        if differs(&fewer.concat()) {
            lines = fewer;
            place = place.min(lines.len());
        }
    }
    lines.concat()
}
