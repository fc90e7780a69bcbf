//! How input comes and output goes: in pieces, across the cuts between reads, and in turns.
use reference::numbers::Numbers;
use script::random::day;
use script::{
    assert_same, ends, from_a_file, in_time, printed, program, start, through_a_pipe, NAMES,
    OPEN_MAC, OPEN_PRF,
};
use std::io::{BufRead, BufReader, Write};
use std::process::Stdio;
use std::thread::sleep;
use std::time::Duration;

/// What one read asks for at most.
const CHUNK: usize = 65_536;

/// A script from a file, where the cuts are at multiples of the chunk, and through a pipe, where they lie anywhere.
fn assert_both(script: &[u8]) {
    let expected = reference::script::run(script);
    assert_same(script, &from_a_file(&program(), script), &expected);
    assert_same(script, &through_a_pipe(&program(), script), &expected);
}

/// Lines of one length over more than three chunks, moved on by 11 bytes for each of so many refused lines.
fn moved(line: &str, refused: usize) -> Vec<u8> {
    let times = 3 * CHUNK / line.len() + 10;
    let opens = "open 3 -\nopen 4 -\n";
    [
        NAMES,
        opens.as_bytes(),
        "close 99 -\n".repeat(refused).as_bytes(),
        line.repeat(times).as_bytes(),
    ]
    .concat()
}

/// 11 and the lengths of these lines, 72 and 8, have no common divisor, so that every place in a line comes to lie at the cut.
#[test]
fn lines_across_every_cut() {
    let feed = "feed 2 00112233445566778899aabbccddeeff00112233445566778899aabbccddeeff\n";
    for line in [feed, "sum 0 -\n"] {
        for refused in 0..line.len() {
            assert_both(&moved(line, refused));
        }
    }
}

/// Lines of the longest kind, and a malformed one after them.
#[test]
fn long_lines_across_the_cuts() {
    let line = format!("feed 1 {}\n", "c3".repeat(1_024));
    for refused in (0..180).step_by(13) {
        let mut script = moved(&line, refused);
        assert_both(&script);
        script.extend(b"feed 1 c\n");
        assert_both(&script);
    }
}

/// A script of so many bytes, the last of them a newline.
fn filled(size: usize) -> Vec<u8> {
    let left = size - NAMES.len();
    // Lines of 8 and of 9 bytes.
    let nines = left % 8;
    let eights = (left - 9 * nines) / 8;
    let script = [
        NAMES,
        "sum 0 -\n".repeat(eights).as_bytes(),
        "feed 1 -\n".repeat(nines).as_bytes(),
    ]
    .concat();
    assert_eq!(script.len(), size);
    script
}

#[test]
fn ends_at_a_cut() {
    for chunks in 1..=3 {
        for size in chunks * CHUNK - 10..=chunks * CHUNK + 10 {
            let script = filled(size);
            assert_both(&script);
            assert_both(&script[..size - 1]);
            assert_both(&[&script[..], b"\n"].concat());
        }
    }
}

/// An overlong line that begins or ends at a cut, or fills a chunk.
#[test]
fn overlong_lines_at_a_cut() {
    for before in [CHUNK - 2_101, CHUNK - 2_100, CHUNK - 1, CHUNK, CHUNK + 1] {
        for length in [2_065, 2_066, 2_100, 2_101, CHUNK - 1, CHUNK, CHUNK + 1] {
            let mut script = filled(before);
            script.extend(std::iter::repeat_n(b'0', length));
            assert_both(&script);
            script.extend(b"\nsum 0 -\n");
            assert_both(&script);
        }
    }
}

#[test]
fn output_longer_than_a_buffer() {
    let draws = "draw 1 0400\ndraw 2 0400\n".repeat(300);
    let lines = format!("open 4 -\n{OPEN_PRF}\n{draws}");
    assert_both(&[NAMES, lines.as_bytes()].concat());
}

/// Answers of many lengths, so that the buffer is full at many places of a line.
#[test]
fn output_of_uneven_lines() {
    for count in [1, 2, 3, 5, 8, 100, 1_000, 1_021] {
        let draws = format!("draw 1 {count:04x}\nsum 0 -\n").repeat(300_000 / (2 * count + 20));
        assert_both(&[NAMES, b"open 4 -\n", draws.as_bytes()].concat());
    }
}

/// What is printed for a script that is written in pieces of given lengths, with a pause after each.
fn in_pieces(
    script: &[u8],
    pause: Duration,
    mut length: impl FnMut() -> usize + Send + 'static,
) -> Vec<u8> {
    let script = script.to_vec();
    printed(start(&program(), Stdio::piped()), move |stdin| {
        let mut rest = &script[..];
        while !rest.is_empty() {
            let (piece, after) = rest.split_at(length().min(rest.len()));
            if stdin.write_all(piece).is_err() {
                return;
            }
            sleep(pause);
            rest = after;
        }
    })
}

#[test]
fn byte_by_byte() {
    let whole = "call number bytes\nopen 3 -\nfeed 1 0102030405060708\ndraw 1 0003\nsum 0 -\n";
    let scripts = [
        whole.to_string(),
        whole.trim_end().to_string(),
        format!("{whole}\n"),
        format!("{whole}sum 0\nsum 0 -\n"),
        "call number byte\nsum 0 -\n".to_string(),
    ];
    for script in scripts {
        let script = script.as_bytes();
        let all = in_pieces(script, Duration::from_micros(200), || 1);
        assert_same(script, &all, &reference::script::run(script));
    }
}

#[test]
fn in_odd_pieces() {
    for seed in 0..6 {
        let mut numbers = Numbers(seed);
        let script = day(&mut numbers, 1_000);
        let expected = reference::script::run(&script);
        let most = [30, 300, 3_000][seed as usize % 3];
        let all = in_pieces(&script, Duration::from_micros(20), move || {
            numbers.between(1, most)
        });
        assert_same(&script, &all, &expected);
    }
}

/// Writes a piece and reads its answers before the next piece is written. After the last answer, which stops the script, the program ends though its input stays open.
fn converse(turns: Vec<(&str, Vec<&str>)>) {
    let owned = |text: &str| text.to_owned();
    let turns: Vec<(String, Vec<String>)> = turns
        .into_iter()
        .map(|(written, answers)| (owned(written), answers.into_iter().map(owned).collect()))
        .collect();
    let mut child = start(&program(), Stdio::piped());
    let mut stdin = child.stdin.take().unwrap();
    let mut lines = BufReader::new(child.stdout.take().unwrap()).lines();
    let stdin = in_time(&mut child, move || {
        for (written, answers) in turns {
            stdin.write_all(written.as_bytes()).expect("it still reads");
            if answers.is_empty() {
                // Time for a program that would end here, whose next piece then finds no reader.
                sleep(Duration::from_millis(200));
            }
            for answer in answers {
                assert_eq!(lines.next().expect("an answer").unwrap(), answer);
            }
        }
        assert!(lines.next().is_none());
        stdin
    });
    ends(&mut child);
    drop(stdin);
}

#[test]
fn in_turns() {
    converse(vec![
        ("call number bytes\n", vec!["answer number bytes"]),
        (&format!("{OPEN_MAC}\n"), vec!["ok 1 -"]),
        ("draw 1 0001\n", vec!["ok 2 eb"]),
        ("sum 0 -\nsum 0 -\nsu", vec!["ok 2 -", "ok 2 -"]),
        ("m 0 -\ncheck 1 eb1af688825d66bf2d", vec!["ok 2 -"]),
        ("53e135f9323315", vec![]),
        ("\n", vec!["pass 2 -"]),
        ("draw 1 0001\n", vec!["no 12 -"]),
        ("close 1\n", vec!["stop 9 -"]),
    ]);
}

/// A line may have 2,100 bytes, though none of that length is well-formed; the next byte stops the script, with no newline.
#[test]
fn the_byte_that_is_one_too_many() {
    converse(vec![
        ("call number bytes\n", vec!["answer number bytes"]),
        (&"x".repeat(2_100), vec![]),
        ("x", vec!["stop 2 -"]),
    ]);
}
