//! The limits of a script: the length of a line, and the number of lines.
use script::{assert_prints, program, Talk};
use std::fs::File;

/// The line stops a script as its first line and, after `begun`, as its third; what follows it changes nothing.
fn assert_stops(begun: &str, line: &str, rest: &str) {
    let first = format!("{line}{rest}");
    assert_prints(first.as_bytes(), b"answer number bytes\nstop 1 -\n");
    let later = format!("call number bytes\nsum 0 -\n{begun}{line}{rest}");
    assert_prints(later.as_bytes(), b"answer number bytes\nok 0 -\nstop 3 -\n");
}

#[test]
fn the_longest_well_formed_line() {
    let longest = format!("check 4294967295 {}", "0f".repeat(1_024));
    assert_eq!(longest.len(), 2_065);
    let mut talk = Talk::default();
    talk.line(&longest, "no 11 -");
    assert_prints(&talk.script[..talk.script.len() - 1], &talk.expected);
    talk.line("sum 0 -", "ok 0 -")
        .line(&longest, "no 11 -")
        .line(format!("{longest}0"), "stop 5 -");
    talk.assert();
    assert_prints(&talk.script[..talk.script.len() - 1], &talk.expected);
}

/// Lines with a well-formed one at their beginning, or at their end, where a program that starts anew with a full buffer would find it.
fn lengthened(well: &str, length: usize) -> [String; 4] {
    let fill = length - well.len();
    [
        format!("{well}{}", "0".repeat(fill)),
        format!("{well}{}", " ".repeat(fill)),
        format!("{}{well}", "x".repeat(fill)),
        format!("{} {well}", "x".repeat(fill - 1)),
    ]
}

#[test]
fn lines_about_2100_bytes() {
    let lengths = [
        2_066, 2_099, 2_100, 2_101, 2_102, 2_107, 2_108, 4_200, 4_207, 6_307,
    ];
    let rests = [
        "",
        "\n",
        "\nsum 0 -",
        "\nsum 0 -\n",
        "\ncall number bytes\nsum 0 -\n",
    ];
    let of_length = |length| {
        let well = ["sum 0 -", "call number bytes"];
        well.map(|well| lengthened(well, length)).concat()
    };
    for line in lengths.map(of_length).concat() {
        for rest in rests {
            assert_stops("", &line, rest);
        }
    }
}

/// Megabytes with no newline; there is one at the very end, or none.
#[test]
fn a_line_that_never_ends() {
    for byte in ["x", " ", "0", "\0", "\r"] {
        let line = byte.repeat(5_000_000);
        for rest in ["", "\n", "\nsum 0 -\n"] {
            assert_stops("feed 1 ", &line, rest);
        }
    }
}

/// Input without an end: the line is too long long before.
#[test]
fn input_without_an_end() {
    let zeros = File::open("/dev/zero").unwrap();
    let child = script::start(&program(), zeros.into());
    assert_eq!(
        script::printed(child, |_| ()),
        b"answer number bytes\nstop 1 -\n"
    );
}

const MILLION: usize = 1_000_000;

/// So many lines, the line of names among them: sums, feeds of nothing, and refused feeds.
fn talk(lines: usize) -> Talk {
    let mut talk = Talk::default();
    talk.line("open 3 -", "ok 1 -");
    let turns = [
        ("sum 0 -", "ok 1 -"),
        ("feed 1 -", "ok 1 -"),
        ("feed 2 00", "no 11 -"),
    ];
    for (line, answer) in turns.iter().cycle().take(lines - 2) {
        talk.line(line, answer);
    }
    talk
}

#[test]
fn a_million_lines() {
    let mut talk = talk(MILLION);
    talk.assert();
    talk.script.pop();
    talk.assert();
}

#[test]
fn a_million_lines_and_one() {
    let whole = talk(MILLION);
    for more in [
        "sum 0 -",
        "sum 0 -\n",
        "\n",
        "\n\n",
        "x",
        "sum 0 -\nsum 0 -\n",
    ] {
        let script = [&whole.script, more.as_bytes()].concat();
        let expected = [&whole.expected[..], b"stop 1000001 -\n"].concat();
        assert_prints(&script, &expected);
    }
}

/// A malformed line in the last allowed place is told by its own number.
#[test]
fn line_1000000_is_malformed() {
    let mut talk = talk(MILLION - 1);
    talk.line("", "stop 1000000 -");
    talk.script.extend(b"sum 0 -\nsum 0 -\n");
    talk.assert();
}
