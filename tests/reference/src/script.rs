//! Document 01's script program, with the tag lengths of change request K2, written from its section alone: lines are read into calls, the plain machine
//! answers them, and the answers are written out.
use crate::machine::{Answer, Call, Machine};

const NAMES: &[u8] = b"call number bytes";
const MOST_LINES: u32 = 1_000_000;
const LONGEST_LINE: usize = 2_100;
const MOST_BYTES: usize = 1_024;

/// What the program prints for an input.
pub fn run(input: &[u8]) -> Vec<u8> {
    run_watched(input, |_, _| ())
}

/// The same, with each call and its answer shown to somebody else as well.
pub fn run_watched(input: &[u8], mut watch: impl FnMut(&Call, &Answer)) -> Vec<u8> {
    let mut machine = Machine::default();
    let mut printed = b"answer number bytes\n".to_vec();
    // The last newline may be missing. Input with no bytes is one empty line, which is not the line of names.
    let lines = input.strip_suffix(b"\n").unwrap_or(input);
    for (line, number) in lines.split(|byte| *byte == b'\n').zip(1..) {
        if number == 1 && line == NAMES {
            continue;
        }
        let call = match number {
            2..=MOST_LINES => parse(line),
            _ => None,
        };
        let Some(call) = call else {
            printed.extend(format!("stop {number} -\n").bytes());
            break;
        };
        let answer = machine.call(&call);
        watch(&call, &answer);
        printed.extend(write(&call, &answer).bytes());
    }
    printed
}

/// The call of a line of values; none where the line breaks a rule.
fn parse(line: &[u8]) -> Option<Call> {
    if line.len() > LONGEST_LINE {
        return None;
    }
    let fields: Vec<&[u8]> = line.split(|byte| *byte == b' ').collect();
    let [name, number, field] = fields[..] else {
        return None;
    };
    let number = parse_number(number)?;
    match (name, number) {
        (b"open", mode) => {
            let mut key = parse_bytes(field)?;
            // In mode 2 the last byte is the tag length. A field of no bytes has none, and a key of no bytes, which is refused before any tag length.
            let last = if mode == 2 { key.pop() } else { None };
            Some(Call::Open {
                mode,
                key,
                tag_length: last.map_or(0, u32::from),
            })
        }
        (b"feed", ticket) => Some(Call::Feed {
            ticket,
            bytes: parse_bytes(field)?,
        }),
        (b"draw", ticket) => parse_count(field).map(|count| Call::Draw {
            ticket,
            buffer: vec![0; count],
            place: 0,
            count: count as u64,
        }),
        (b"check", ticket) => Some(Call::Check {
            ticket,
            tag: parse_bytes(field)?,
        }),
        (b"close", ticket) if field == b"-" => Some(Call::Close { ticket }),
        (b"sum", 0) if field == b"-" => Some(Call::Sum),
        _ => None,
    }
}

/// A number of 32 bits. It can be written in one way only, so that no sign and no leading zero is let through.
fn parse_number(field: &[u8]) -> Option<u32> {
    let digits = std::str::from_utf8(field).ok()?;
    let number: u32 = digits.parse().ok()?;
    (number.to_string() == digits).then_some(number)
}

/// Bytes in lower-case hex, or `-` for none.
fn parse_bytes(field: &[u8]) -> Option<Vec<u8>> {
    if field == b"-" {
        return Some(Vec::new());
    }
    let length = field.len() / 2;
    if field.len() != 2 * length || !(1..=MOST_BYTES).contains(&length) {
        return None;
    }
    let pairs = field.chunks(2);
    pairs
        .map(|pair| Some(16 * digit(pair[0])? + digit(pair[1])?))
        .collect()
}

/// The count of a draw: four digits in hex.
fn parse_count(field: &[u8]) -> Option<usize> {
    if field.len() != 4 {
        return None;
    }
    let bytes = parse_bytes(field)?;
    let count = 256 * usize::from(bytes[0]) + usize::from(bytes[1]);
    (count <= MOST_BYTES).then_some(count)
}

fn digit(byte: u8) -> Option<u8> {
    match byte {
        b'0'..=b'9' => Some(byte - b'0'),
        b'a'..=b'f' => Some(byte - b'a' + 10),
        _ => None,
    }
}

/// The line that is printed for a call and its answer.
fn write(call: &Call, answer: &Answer) -> String {
    if answer.refusal != 0 {
        return format!("no {} -\n", answer.refusal);
    }
    let word = match call {
        Call::Check { .. } if answer.passed => "pass",
        Call::Check { .. } => "fail",
        _ => "ok",
    };
    let number = match call {
        Call::Open { .. } => u64::from(answer.ticket),
        Call::Sum => answer.sum,
        _ => answer.runs,
    };
    let bytes = field(answer.buffer.as_deref().unwrap_or_default());
    format!("{word} {number} {bytes}\n")
}

/// Bytes as a script has them.
pub fn field(bytes: &[u8]) -> String {
    if bytes.is_empty() {
        return "-".to_string();
    }
    const DIGITS: &[u8; 16] = b"0123456789abcdef";
    let digits = bytes.iter().flat_map(|byte| [byte >> 4, byte & 15]);
    digits.map(|d| char::from(DIGITS[usize::from(d)])).collect()
}

#[cfg(test)]
mod tests {
    use super::*;

    #[test]
    fn the_example() {
        let input = "call number bytes\nopen 3 -\nfeed 1 0102030405060708\ndraw 1 0000\nclose 1 -\nfeed 1 09\nsum 0 -\n";
        let printed = "answer number bytes\nok 1 -\nok 2 -\nok 3 -\nok 3 -\nno 12 -\nok 3 -\n";
        assert_eq!(run(input.as_bytes()), printed.as_bytes());
    }

    /// The last byte of an open in mode 2 is the tag length; in other modes all bytes are the key.
    #[test]
    fn the_length_byte() {
        for (line, key, tag_length) in [
            ("open 2 0a0b0c", vec![0x0a, 0x0b], 0x0c),
            ("open 2 ff", vec![], 255),
            ("open 2 -", vec![], 0),
            ("open 1 0a0b0c", vec![0x0a, 0x0b, 0x0c], 0),
            ("open 258 0a", vec![0x0a], 0),
        ] {
            let Some(Call::Open {
                key: k,
                tag_length: t,
                ..
            }) = parse(line.as_bytes())
            else {
                panic!("no open: {line}");
            };
            assert_eq!((k, t), (key, tag_length), "{line}");
        }
    }

    /// Wherever the input ends: in a line, at its newline, and before any line.
    #[test]
    fn ends() {
        let of = |input: &str| String::from_utf8(run(input.as_bytes())).unwrap();
        assert_eq!(of(""), "answer number bytes\nstop 1 -\n");
        assert_eq!(of("\n"), "answer number bytes\nstop 1 -\n");
        assert_eq!(of("call number bytes"), "answer number bytes\n");
        assert_eq!(of("call number bytes\n"), "answer number bytes\n");
        assert_eq!(
            of("call number bytes\n\n"),
            "answer number bytes\nstop 2 -\n"
        );
        assert_eq!(
            of("call number bytes\nsum 0 -"),
            "answer number bytes\nok 0 -\n"
        );
    }
}
