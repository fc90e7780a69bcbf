//! Input and output that fail, that are closed, or that nobody reads.
use script::{assert_same, in_time, printed, program, start, NAMES};
use std::fs::{File, OpenOptions};
use std::io::{Read, Write};
use std::os::fd::OwnedFd;
use std::os::unix::net::UnixStream;
use std::process::{Command, Stdio};

/// A script whose output is larger than any buffer.
fn long_script() -> Vec<u8> {
    [NAMES, "sum 0 -\n".repeat(100_000).as_bytes()].concat()
}

/// Scripts whose output is the line of names, that and a stop, or longer than any buffer.
fn scripts() -> [Vec<u8>; 4] {
    [NAMES.to_vec(), b"x".to_vec(), Vec::new(), long_script()]
}

/// Writes all of a script that may not be read to its end.
fn write(script: Vec<u8>) -> impl FnOnce(&mut dyn Write) + Send + 'static {
    move |stdin| {
        let _ = stdin.write_all(&script);
    }
}

/// Starts the program by a line of the shell, in which it is "$0".
fn by_shell(line: &str) -> Command {
    let mut command = Command::new("sh");
    command.arg("-c").arg(line).arg(program());
    command
}

#[test]
fn output_that_is_full() {
    for script in scripts() {
        let full = OpenOptions::new().write(true).open("/dev/full").unwrap();
        let mut command = Command::new(program());
        let child = command.stdin(Stdio::piped()).stdout(full).spawn().unwrap();
        assert!(printed(child, write(script)).is_empty());
    }
}

#[test]
fn output_that_is_closed() {
    for script in scripts() {
        let mut command = by_shell("exec \"$0\" >&-");
        let child = command.stdin(Stdio::piped()).spawn().unwrap();
        assert!(printed(child, write(script)).is_empty());
    }
}

/// The reader goes away after the first answers; a broken pipe ends the program by a signal, or by an error where the signal is ignored.
#[test]
fn output_that_nobody_reads() {
    for line in ["exec \"$0\"", "trap '' PIPE; exec \"$0\""] {
        let mut command = by_shell(line);
        let mut child = command
            .stdin(Stdio::piped())
            .stdout(Stdio::piped())
            .spawn()
            .unwrap();
        let mut stdout = child.stdout.take().unwrap();
        let mut stdin = child.stdin.take().unwrap();
        let stdin = in_time(&mut child, move || {
            let mut first = [0; 20];
            stdin.write_all(NAMES).unwrap();
            stdout.read_exact(&mut first).expect("the first line");
            assert_eq!(&first, b"answer number bytes\n");
            stdin
        });
        child.stdin = Some(stdin);
        printed(child, write(long_script()));
    }
}

#[test]
fn input_that_is_closed() {
    let mut command = by_shell("exec \"$0\" <&-");
    let child = command.stdout(Stdio::piped()).spawn().unwrap();
    assert_eq!(printed(child, |_| ()), b"answer number bytes\n");
}

#[test]
fn input_that_is_a_folder() {
    let child = start(&program(), File::open("/").unwrap().into());
    assert_eq!(printed(child, |_| ()), b"answer number bytes\n");
}

#[test]
fn no_input() {
    let child = start(&program(), Stdio::null());
    assert_eq!(printed(child, |_| ()), b"answer number bytes\nstop 1 -\n");
}

/// What is printed where reading fails after a script: a socket whose other end is closed with a byte unread is reset.
fn with_a_failed_read(script: &[u8]) -> Vec<u8> {
    let (mut ours, theirs) = UnixStream::pair().unwrap();
    (&theirs).write_all(b"x").unwrap();
    ours.write_all(script).unwrap();
    drop(ours);
    printed(start(&program(), OwnedFd::from(theirs).into()), |_| ())
}

/// A line that was cut off by an error is not run, and no line number is told; all before it was answered.
#[test]
fn input_that_fails() {
    let cases = [
        ("", ""),
        ("call number bytes", ""),
        ("call number bytes\n", ""),
        ("call number bytes\nopen 3 -\nsum 0 -\n", "ok 1 -\nok 1 -\n"),
        ("call number bytes\nopen 3 -\nsum 0 -", "ok 1 -\n"),
        ("call number bytes\nopen 3 -\nsum 0", "ok 1 -\n"),
        (
            "call number bytes\nopen 3 -\nsum\nsum 0 -",
            "ok 1 -\nstop 3 -\n",
        ),
    ];
    for (script, rest) in cases {
        let expected = format!("answer number bytes\n{rest}");
        assert_same(
            script.as_bytes(),
            &with_a_failed_read(script.as_bytes()),
            expected.as_bytes(),
        );
    }
}
