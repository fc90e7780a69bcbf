//! Malformed lines, and the well-formed lines beside them. What is expected is written out, so that the reference is held to it too.
use script::malformed::malformed;
use script::{assert_agrees, assert_prints, Talk, OPEN_MAC};
use std::collections::BTreeSet;

/// Tickets of the MAC and of the XOF are open; line 4 comes next.
fn opened() -> Talk {
    let mut talk = Talk::default();
    talk.line(OPEN_MAC, "ok 1 -").line("open 4 -", "ok 2 -");
    talk
}

/// Line 4 stops the script, in its middle and at its end.
fn assert_stops(line: &[u8]) {
    for rest in ["", "\n", "\nsum 0 -", "\nsum 0 -\n", "\n\n"] {
        // Input that ends there has no line 4.
        if line.is_empty() && rest.is_empty() {
            continue;
        }
        let mut talk = opened();
        talk.script.extend([line, rest.as_bytes()].concat());
        talk.expected.extend(b"stop 4 -\n");
        talk.assert();
    }
}

#[test]
fn malformed_lines() {
    for pair in malformed() {
        assert_stops(&pair.malformed);
    }
}

/// Each of these is answered, in the middle of a script and at its end.
#[test]
fn well_formed_lines() {
    let lines = malformed().into_iter();
    let lines: BTreeSet<_> = lines.map(|p| (p.well_formed, p.answer)).collect();
    for (line, answer) in lines {
        let mut talk = opened();
        talk.line(line, answer).assert();
        assert_prints(&talk.script[..talk.script.len() - 1], &talk.expected);
        talk.line("open 4", "stop 5 -").assert();
    }
}

/// What is nearly the line of names.
const NEARLY: [&str; 19] = [
    "Call number bytes",
    "CALL NUMBER BYTES",
    "call number byte",
    "call number bytess",
    "call number",
    "call  number bytes",
    "call number  bytes",
    " call number bytes",
    "call number bytes ",
    "call number bytes\r",
    "call number bytes\0",
    "\u{feff}call number bytes",
    "call\tnumber\tbytes",
    "call,number,bytes",
    "callnumberbytes",
    "call number bytes -",
    "bytes number call",
    "all number bytes",
    "call number Bytes",
];

/// The first line is the line of names and no other, not even one that would be well-formed later.
#[test]
fn line_1() {
    let stop = b"answer number bytes\nstop 1 -\n";
    let pairs = malformed().into_iter();
    let lines = pairs.flat_map(|p| [p.malformed, p.well_formed]);
    let mut lines: BTreeSet<Vec<u8>> = lines.chain(NEARLY.map(Vec::from)).collect();
    lines.remove(&b"call number bytes"[..]);
    for mut line in lines {
        assert_prints(&line, stop);
        line.extend(b"\ncall number bytes\nsum 0 -\n");
        assert_prints(&line, stop);
    }
}

/// Every byte of a line changed to every value; of an open, those of its tag length.
#[test]
fn every_byte_changed() {
    let tag_length = OPEN_MAC.len() - 2;
    for (line, first) in [("feed 1 0a", 0), ("draw 2 0010", 0), (OPEN_MAC, tag_length)] {
        let before = opened().script;
        for (at, byte) in (first..line.len()).flat_map(|at| (0..=255).map(move |byte| (at, byte))) {
            let mut script = [&before, line.as_bytes(), b"\nsum 0 -\n"].concat();
            script[before.len() + at] = byte;
            assert_agrees(&script);
        }
    }
}
