//! Runs the program `rampscript`, and holds what it prints against the reference.
use std::fs::{self, File};
use std::io::{Read, Write};
use std::panic::resume_unwind;
use std::path::{Path, PathBuf};
use std::process::{Child, Command, Stdio};
use std::sync::mpsc;
use std::thread;
use std::time::{Duration, Instant};

pub mod coverage;
pub mod malformed;
pub mod random;

/// The line of names, with which every script begins.
pub const NAMES: &[u8] = b"call number bytes\n";

/// Opens under the key 00 01 .. 0f; MACs with tags of 16 bytes, and of 8.
pub const OPEN_PRF: &str = "open 1 000102030405060708090a0b0c0d0e0f";
pub const OPEN_MAC: &str = "open 2 000102030405060708090a0b0c0d0e0f10";
pub const OPEN_MAC_8: &str = "open 2 000102030405060708090a0b0c0d0e0f08";

/// A program that has not ended by then is killed, and its test fails: after twenty seconds, or as many as the variable SCRIPT_LIMIT says.
fn limit() -> Duration {
    Duration::from_secs(variable("SCRIPT_LIMIT").unwrap_or(20))
}

/// Far more than any test's output: a program that prints without end is not read without end.
const MOST_PRINTED: u64 = 100_000_000;

/// A variable's number, if it is set.
pub fn variable(name: &str) -> Option<u64> {
    let value = std::env::var(name).ok()?;
    let number = value.parse();
    Some(number.unwrap_or_else(|_| panic!("{name} must be a number, and is {value:?}")))
}

/// The folder of the repository.
pub fn root() -> PathBuf {
    let folder = Path::new(env!("CARGO_MANIFEST_DIR")).join("../..");
    folder.canonicalize().expect("the folder is there")
}

/// The program that is tested: what the gate built, or the one that the variable RAMPSCRIPT names.
pub fn program() -> PathBuf {
    let built = root().join("target/bin/rampscript");
    let program = std::env::var_os("RAMPSCRIPT").map_or(built, PathBuf::from);
    assert!(
        program.exists(),
        "{} is missing: `./build rampscript` builds it",
        program.display()
    );
    program
}

/// Does some work with a program's pipes. Where that takes too long the program is killed, which ends the work, and the test fails.
pub fn in_time<T: Send + 'static>(
    child: &mut Child,
    work: impl FnOnce() -> T + Send + 'static,
) -> T {
    let (sender, receiver) = mpsc::channel();
    let worker = thread::spawn(move || {
        let _ = sender.send(work());
    });
    receiver.recv_timeout(limit()).unwrap_or_else(|_| {
        let _ = child.kill();
        let _ = child.wait();
        match worker.join() {
            Err(failure) => resume_unwind(failure),
            Ok(()) => panic!("the program has not ended after {:?}", limit()),
        }
    })
}

/// What a program that was started prints until it ends. What it reads is written in a thread of its own: it may print before it has read all, and end before, too.
pub fn printed(mut child: Child, input: impl FnOnce(&mut dyn Write) + Send + 'static) -> Vec<u8> {
    if let Some(mut stdin) = child.stdin.take() {
        thread::spawn(move || input(&mut stdin));
    }
    let stdout = child.stdout.take();
    let all = in_time(&mut child, move || {
        let mut all = Vec::new();
        if let Some(stdout) = stdout {
            let read = stdout.take(MOST_PRINTED).read_to_end(&mut all);
            read.expect("what is printed can be read");
        }
        all
    });
    ends(&mut child);
    all
}

/// Waits for the end of a program that has closed its output, or has none.
pub fn ends(child: &mut Child) {
    let start = Instant::now();
    while child
        .try_wait()
        .expect("a child can be waited for")
        .is_none()
    {
        if start.elapsed() > limit() {
            let _ = child.kill();
            let _ = child.wait();
            panic!("the program has not ended after {:?}", limit());
        }
        thread::sleep(Duration::from_micros(100));
    }
}

/// Starts a program whose output is read.
pub fn start(program: &Path, stdin: Stdio) -> Child {
    let mut command = Command::new(program);
    command.stdin(stdin).stdout(Stdio::piped());
    command.spawn().expect("the program can be started")
}

/// What a program prints for a script that comes through a pipe.
pub fn through_a_pipe(program: &Path, script: &[u8]) -> Vec<u8> {
    let script = script.to_vec();
    printed(start(program, Stdio::piped()), move |stdin| {
        // It may end early, at a malformed line.
        let _ = stdin.write_all(&script);
    })
}

/// What a program prints for a script in a file, of which every read gives as much as is asked for.
pub fn from_a_file(program: &Path, script: &[u8]) -> Vec<u8> {
    let path = keep(script, &format!("input-{}", std::process::id()));
    let file = File::open(&path).expect("the script can be opened");
    let all = printed(start(program, file.into()), |_| ());
    fs::remove_file(path).expect("the script can be removed");
    all
}

/// Writes a script into target/scripts, under the name of the test.
pub fn keep(script: &[u8], what: &str) -> PathBuf {
    let folder = root().join("target/scripts");
    fs::create_dir_all(&folder).expect("target/scripts can be made");
    let test = thread::current().name().unwrap_or("test").to_string();
    let path = folder.join(format!("{test}-{what}.script"));
    fs::write(&path, script).expect("the script can be written");
    path
}

/// Where two outputs part: the first line that differs, and what each has there.
pub fn difference(printed: &[u8], expected: &[u8]) -> Option<String> {
    if printed == expected {
        return None;
    }
    let lines = |text: &[u8]| -> Vec<String> {
        let lines = text.split_inclusive(|byte| *byte == b'\n');
        lines.map(|l| l.escape_ascii().to_string()).collect()
    };
    let (printed, expected) = (lines(printed), lines(expected));
    let same = printed.iter().zip(&expected);
    let line = same.take_while(|(p, e)| p == e).count();
    let at = |lines: &[String]| {
        let line = lines.get(line).map_or("nothing", String::as_str);
        line.chars().take(200).collect::<String>()
    };
    Some(format!(
        "line {} of the output: printed {}, expected {}",
        line + 1,
        at(&printed),
        at(&expected)
    ))
}

/// Fails where what was printed for a script is not what is expected, and keeps the script.
pub fn assert_same(script: &[u8], printed: &[u8], expected: &[u8]) {
    if let Some(difference) = difference(printed, expected) {
        let path = keep(script, "failed");
        panic!("{difference}; the script is {}", path.display());
    }
}

/// Holds the program against the reference, and gives what both print.
pub fn assert_agrees(script: &[u8]) -> Vec<u8> {
    let printed = through_a_pipe(&program(), script);
    assert_same(script, &printed, &reference::script::run(script));
    printed
}

/// Holds both, the reference and the program, against what a script must give: a slip that they share would be found.
pub fn assert_prints(script: &[u8], expected: &[u8]) {
    assert_same(script, &reference::script::run(script), expected);
    assert_same(script, &through_a_pipe(&program(), script), expected);
}

/// A script, line by line, with what each line must give.
pub struct Talk {
    pub script: Vec<u8>,
    pub expected: Vec<u8>,
}

impl Default for Talk {
    /// Both lines of names.
    fn default() -> Talk {
        Talk {
            script: NAMES.to_vec(),
            expected: b"answer number bytes\n".to_vec(),
        }
    }
}

impl Talk {
    pub fn line(&mut self, line: impl AsRef<[u8]>, answer: impl AsRef<str>) -> &mut Talk {
        self.script.extend(line.as_ref());
        self.script.push(b'\n');
        self.expected.extend(answer.as_ref().bytes());
        self.expected.push(b'\n');
        self
    }

    pub fn lines(&mut self, lines: &[(&str, &str)]) -> &mut Talk {
        for (line, answer) in lines {
            self.line(line, answer);
        }
        self
    }

    pub fn assert(&self) {
        assert_prints(&self.script, &self.expected);
    }
}

/// A script that must be answered so.
pub fn assert_talk(lines: &[(&str, &str)]) {
    Talk::default().lines(lines).assert();
}
