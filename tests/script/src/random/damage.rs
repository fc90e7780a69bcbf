//! Damage to scripts: to their bytes, and to their lines.
use reference::numbers::Numbers;

/// A script damaged in one place.
pub fn damage(numbers: &mut Numbers, script: &mut Vec<u8>) {
    if script.is_empty() {
        return;
    }
    let at = numbers.below(script.len());
    let byte = match numbers.below(3) {
        0 => numbers.bytes(1)[0],
        _ => numbers.pick(b"0123456789abcdefg -\n\n \r\t+AF/:@`"),
    };
    match numbers.below(12) {
        0 | 1 => script[at] = byte,
        2 => script[at] ^= 1 << numbers.below(8),
        3 => script.insert(at, byte),
        4 => drop(script.remove(at)),
        5 => script.truncate(at),
        6 => script.insert(at, script[at]),
        7 => {
            // A digit more in the middle of a field, or very many.
            let times = numbers.pick(&[1, 2, 20, 2_100, 70_000]);
            let digit = numbers.pick(b"01af");
            script.splice(at..at, std::iter::repeat_n(digit, times));
        }
        _ => damage_lines(numbers, script),
    }
}

/// Lines are doubled, exchanged, moved, left out, joined or made empty.
fn damage_lines(numbers: &mut Numbers, script: &mut Vec<u8>) {
    let text = script.split_inclusive(|byte| *byte == b'\n');
    let mut lines: Vec<Vec<u8>> = text.map(<[u8]>::to_vec).collect();
    // As a rule the line of names stays.
    let first = usize::from(lines.len() > 1 && !numbers.one_in(20));
    let a = numbers.between(first, lines.len() - 1);
    let b = numbers.between(first, lines.len() - 1);
    match numbers.below(8) {
        0 => lines.insert(a, lines[b].clone()),
        1 | 2 => lines.swap(a, b),
        3 => {
            let line = lines.remove(a);
            lines.insert(b.min(lines.len()), line);
        }
        4 => drop(lines.remove(a)),
        5 => drop(lines[a].pop()),
        6 => lines.insert(a, b"\n".to_vec()),
        _ => lines[a] = with_a_field_of(&lines[b], &lines[a], numbers.below(3)),
    }
    *script = lines.concat();
}

/// A line with one of its fields, by number, in place of which stands that of another.
fn with_a_field_of(other: &[u8], line: &[u8], field: usize) -> Vec<u8> {
    let fields = |line| <[u8]>::split(line, |byte| *byte == b' ').collect::<Vec<_>>();
    let mut all = fields(line);
    if let (Some(into), Some(from)) = (all.get_mut(field), fields(other).get(field)) {
        *into = from;
    }
    all.join(&b' ')
}
