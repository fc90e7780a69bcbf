//! Lists of calls and what they gave, as the programs `day` and `mainloop` print them, worked out anew by the plain machine.
use crate::machine::{Answer, Call, Machine};
use crate::vectors::unhex;
use std::collections::BTreeMap;

/// A line of a list: a new hub, a feed that is made so many times and always accepted, or a call and its answer.
pub enum Line {
    Empty,
    Often(Call, usize),
    Call(Call, Answer),
}

pub fn parse(line: &str) -> Line {
    let fields: Vec<&str> = line.split(' ').collect();
    match fields[..] {
        ["empty"] => Line::Empty,
        ["often", ticket, bytes, times] => {
            Line::Often(parse_call(&["feed", ticket, bytes]), number(times))
        }
        [ref call @ .., "=", "refusal", refusal, "ticket", ticket, "runs", runs, "passed", passed @ ("0" | "1"), "sum", sum, buffer] =>
        {
            let call = parse_call(call);
            let answer = Answer {
                refusal: number(refusal),
                ticket: number(ticket),
                runs: number(runs),
                passed: passed == "1",
                sum: number(sum),
                buffer: parse_buffer(&call, buffer),
            };
            Line::Call(call, answer)
        }
        _ => panic!("no line of a list: {line:?}"),
    }
}

fn parse_call(fields: &[&str]) -> Call {
    match *fields {
        ["open", mode, key, tag_length] => Call::Open {
            mode: number(mode),
            key: bytes(key),
            tag_length: number(tag_length),
        },
        ["feed", ticket, fed] => Call::Feed {
            ticket: number(ticket),
            bytes: bytes(fed),
        },
        ["draw", ticket, buffer, place, count] => Call::Draw {
            ticket: number(ticket),
            buffer: bytes(buffer),
            place: number(place),
            count: number(count),
        },
        ["check", ticket, tag] => Call::Check {
            ticket: number(ticket),
            tag: bytes(tag),
        },
        ["close", ticket, "-"] => Call::Close {
            ticket: number(ticket),
        },
        ["sum", "0", "-"] => Call::Sum,
        _ => panic!("no call: {fields:?}"),
    }
}

/// The buffer as a call leaves it: of a draw as long as it was lent, of any other call none.
fn parse_buffer(call: &Call, field: &str) -> Option<Vec<u8>> {
    let Call::Draw { buffer, .. } = call else {
        assert_eq!(field, "-");
        return None;
    };
    let after = bytes(field);
    assert_eq!(after.len(), buffer.len());
    Some(after)
}

/// A number. It is written again, so that no sign and no leading zero is let through.
fn number<T: std::str::FromStr + ToString>(field: &str) -> T {
    let number = field.parse().ok();
    let number = number.filter(|n: &T| n.to_string() == field);
    number.unwrap_or_else(|| panic!("no number: {field:?}"))
}

/// Bytes. They are written again, so that upper case, an odd digit and an empty field are not let through.
fn bytes(field: &str) -> Vec<u8> {
    let bytes = unhex(field);
    assert_eq!(crate::script::field(&bytes), field);
    bytes
}

/// Works all lines out anew: the calls that were not answered as the plain machine answers them, by line.
pub fn wrong(text: &str) -> Vec<(usize, Answer)> {
    let mut machine = Machine::default();
    let mut found = Vec::new();
    let lines = text.strip_suffix('\n').expect("a last newline");
    for (line, i) in lines.split('\n').zip(1..) {
        match parse(line) {
            Line::Empty => machine = Machine::default(),
            Line::Often(feed, times) => {
                (0..times).for_each(|_| assert_eq!(machine.call(&feed).refusal, 0))
            }
            Line::Call(call, printed) => {
                let right = machine.call(&call);
                if right != printed {
                    found.push((i, right));
                }
            }
        }
    }
    found
}

/// What a list does with the tickets of a mode: the most bytes that one accepted feed took, and of each accepted draw how many bytes it changed. Every draw is lent bytes aa,
/// so that a list that shows the buffer as a draw left it, where it shows the buffer that was lent, is found.
#[derive(Debug, Default)]
pub struct Use {
    pub fed: usize,
    pub drawn: Vec<usize>,
}

pub fn uses(text: &str) -> BTreeMap<u32, Use> {
    let mut modes = BTreeMap::new();
    let mut uses: BTreeMap<u32, Use> = BTreeMap::new();
    for line in text.lines() {
        match parse(line) {
            Line::Call(Call::Draw { ticket, buffer, .. }, answer) => {
                assert!(buffer.iter().all(|byte| *byte == 0xaa), "{line}");
                if answer.refusal == 0 {
                    let after = answer.buffer.unwrap();
                    let changed = after.iter().filter(|byte| **byte != 0xaa).count();
                    uses.entry(modes[&ticket]).or_default().drawn.push(changed);
                }
            }
            Line::Call(Call::Open { mode, .. }, answer) if answer.refusal == 0 => {
                modes.insert(answer.ticket, mode);
            }
            Line::Call(Call::Feed { ticket, bytes }, answer) if answer.refusal == 0 => {
                let fed = &mut uses.entry(modes[&ticket]).or_default().fed;
                *fed = bytes.len().max(*fed);
            }
            Line::Empty => modes.clear(),
            _ => (),
        }
    }
    uses
}

/// A line with another last digit in one field of its answer: a number, or the buffer that a draw gave back.
fn changed(line: &str, name: &str) -> Option<String> {
    let (call, answer) = line.split_once(" = ")?;
    let mut fields: Vec<String> = answer.split(' ').map(String::from).collect();
    // A number stands after its name; the buffer has none, and is last.
    let named = fields.iter().position(|field| field == name);
    let place = named.map_or(fields.len() - 1, |i| i + 1);
    let digit = fields[place].pop().filter(|digit| *digit != '-')?;
    fields[place].push(if digit == '0' { '1' } else { '0' });
    Some(format!("{call} = {}", fields.join(" ")))
}

/// The comparison itself: each line with one field of its answer changed is found to be wrong there. Gives how many changes of each field were tried.
pub fn changes_found(text: &str) -> BTreeMap<&'static str, usize> {
    let mut tried = BTreeMap::new();
    let mut before = String::new();
    for (line, i) in text.lines().zip(1..) {
        for name in ["refusal", "ticket", "runs", "passed", "sum", "buffer"] {
            if let Some(other) = changed(line, name) {
                let found = wrong(&format!("{before}{other}\n"));
                assert_eq!(found.iter().map(|f| f.0).collect::<Vec<_>>(), [i]);
                *tried.entry(name).or_insert(0) += 1;
            }
        }
        before += &format!("{line}\n");
    }
    tried
}

#[cfg(test)]
mod tests {
    use super::*;

    /// Each line is read, and with a part of it in another form it is not.
    #[test]
    fn no_other_form_is_read() {
        const OPEN: &str = "open 3 - 16 = refusal 0 ticket 1 runs 1 passed 0 sum 0 -";
        const DRAW: &str = "draw 1 ff00 0 1 = refusal 0 ticket 0 runs 2 passed 0 sum 0 7300";
        const NONE: &str = "draw 1 - 0 0 = refusal 0 ticket 0 runs 2 passed 0 sum 0 -";
        const FEED: &str = "feed 1 0a = refusal 0 ticket 0 runs 1 passed 0 sum 0 -";
        const CLOSE: &str = "close 1 - = refusal 0 ticket 0 runs 1 passed 0 sum 0 -";
        const SUM: &str = "sum 0 - = refusal 0 ticket 0 runs 0 passed 0 sum 1 -";
        for (line, part, forms) in [
            ("empty", "empty", "/Empty/ empty/empty /empty\r/message 00"),
            ("often 1 0a 2", " 0a 2", " 0a/ 0a 02/ 0a 2 -/ 0a  2/ 2 0a"),
            (
                OPEN,
                "- 16",
                "-/16/-  16/- 016/- +16/- -1/- 0x10/- 4294967296",
            ),
            (OPEN, "- 16", "16 -/- 16 -/- - 16/- 16 16/- -"),
            (DRAW, "ff00", "FF00/ff0/ff000/+f00/-f00/[255 0]/ff 00//-"),
            (DRAW, " 0 1", " 0/ 0 01/ +0 1/ 0 -1/ 0  1/ 0 1 1/ 0 x"),
            (DRAW, "= refusal", "refusal/ = refusal/== refusal/= sum"),
            (DRAW, "ticket 0 runs", "sum 0 runs/0 runs/ticket 0 x"),
            (DRAW, "passed 0 sum", "passed 2 sum/x 0 sum/passed 0 x"),
            (DRAW, "7300", "-/73/730/730000/73AA/7300 //7300 7300"),
            (NONE, "sum 0 -", "sum 0 00/sum 0 /sum 0/sum 0 - "),
            (FEED, "0a", "message/0A/"),
            (FEED, "sum 0 -", "sum 0 0a/sum 0 /sum 0"),
            (CLOSE, "1 -", "1/1 00/-/1 - -"),
            (SUM, "sum 0 -", "sum 1 -/sum 0 00/sum -/sum 0/sum"),
        ] {
            parse(line);
            for form in forms.split('/') {
                let other = line.replacen(part, form, 1);
                let read = std::panic::catch_unwind(|| parse(&other));
                assert!(read.is_err(), "{other:?}");
            }
        }
    }
}
