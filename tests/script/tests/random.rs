//! Random scripts, whole and damaged, against the reference. Variables: SCRIPTS is how many there are, SEED which ones; SCRIPT_SECONDS goes on for so many seconds instead.
use reference::numbers::Numbers;
use reference::script::{run, run_watched};
use script::coverage::{missing, Watch};
use script::random::{damage, day, script};
use script::{difference, from_a_file, keep, program, through_a_pipe, variable};
use std::collections::BTreeSet;
use std::panic::resume_unwind;
use std::path::Path;
use std::sync::atomic::{AtomicU64, Ordering};
use std::sync::Mutex;
use std::thread;
use std::time::{Duration, Instant};

/// How many scripts are tried at the same time.
const WORKERS: usize = 2;

/// The scripts that are tried where nothing else is asked for, and of which it is known what they reach.
const DEFAULT_SEED: u64 = 1;
const DEFAULT_SCRIPTS: u64 = 3_000;

/// Tries the script of a seed, and gives what it reaches. Where it fails it is kept, and its seed told.
fn try_script(program: &Path, seed: u64) -> BTreeSet<String> {
    let script = script(seed);
    let mut watch = Watch::default();
    let expected = run_watched(&script, |call, answer| watch.see(call, answer));
    watch.end(&expected);
    let printed = match seed % 4 {
        0 => from_a_file(program, &script),
        _ => through_a_pipe(program, &script),
    };
    if let Some(difference) = difference(&printed, &expected) {
        let path = keep(&script, &format!("seed-{seed}"));
        panic!(
            "{difference}; the script is {}, and SEED={seed} SCRIPTS=1 makes it alone",
            path.display()
        );
    }
    watch.reached
}

/// Has all workers do some work, and gives what each of them gave. One that fails is the test's failure.
fn by_all_workers<T: Send>(work: impl Fn() -> T + Sync) -> Vec<T> {
    thread::scope(|scope| {
        let spawn = |i| {
            let named = thread::Builder::new().name(format!("random-{i}"));
            named.spawn_scoped(scope, &work).unwrap()
        };
        let workers: Vec<_> = (0..WORKERS).map(spawn).collect();
        let ends = workers.into_iter().map(|worker| worker.join());
        ends.map(|end| end.unwrap_or_else(|failure| resume_unwind(failure)))
            .collect()
    })
}

#[test]
fn random_scripts() {
    let seed = variable("SEED").unwrap_or(DEFAULT_SEED);
    let seconds = variable("SCRIPT_SECONDS").map(Duration::from_secs);
    let scripts = variable("SCRIPTS").unwrap_or(DEFAULT_SCRIPTS);
    let (program, start) = (program(), Instant::now());
    let (next, seen) = (AtomicU64::new(0), Mutex::new(BTreeSet::new()));
    // Each script has a seed of its own, so that one that fails can be made alone. A worker gives the number of the first that it left.
    let left = by_all_workers(|| loop {
        let number = next.fetch_add(1, Ordering::Relaxed);
        if seconds.map_or(number >= scripts, |seconds| start.elapsed() > seconds) {
            return number;
        }
        let reached = try_script(&program, seed + number);
        seen.lock().unwrap().extend(reached);
    });
    let tried = left.into_iter().min().unwrap();
    println!("{tried} scripts in {:?}", start.elapsed());
    if seed == DEFAULT_SEED && tried >= DEFAULT_SCRIPTS {
        let missing = missing(&seen.into_inner().unwrap());
        assert!(missing.is_empty(), "the scripts do not reach {missing:?}");
    }
}

/// The comparison itself: a changed byte of an output is found, and a missing one. A line left out is an answer left out.
#[test]
fn a_change_is_found_in_the_output() {
    let mut numbers = Numbers(7);
    for _ in 0..50 {
        let mut script = day(&mut numbers, 40);
        let newline = usize::from(script.ends_with(b"\n"));
        script.extend(&b"\nopen 4 -\n"[newline..]);
        let printed = run(&script);
        assert_eq!(difference(&printed, &printed), None);
        let mut changed = printed.clone();
        let at = numbers.below(changed.len());
        changed[at] ^= 1;
        assert!(difference(&changed, &printed).is_some());
        assert!(difference(&printed[..at], &printed).is_some());
        let lines: Vec<&[u8]> = script.split_inclusive(|byte| *byte == b'\n').collect();
        let out = numbers.between(1, lines.len() - 1);
        let fewer = [&lines[..out], &lines[out + 1..]].concat().concat();
        assert_ne!(run(&fewer), printed);
    }
}

/// Each bit of a message is seen in the hash of it.
#[test]
fn a_change_is_found_in_a_message() {
    let of = |message: &str| {
        run(format!("call number bytes\nopen 3 -\nfeed 1 {message}\ndraw 1 0020\n").as_bytes())
    };
    let messages = [
        "00", "01", "02", "04", "08", "10", "20", "40", "80", "-", "0000",
    ];
    let outputs: BTreeSet<Vec<u8>> = messages.into_iter().map(of).collect();
    assert_eq!(outputs.len(), messages.len());
}

/// Most damage to a script changes its output.
#[test]
fn a_change_is_found_after_damage() {
    let mut numbers = Numbers(7);
    let mut found = 0;
    for _ in 0..200 {
        let whole = day(&mut numbers, 20);
        let mut damaged = whole.clone();
        damage(&mut numbers, &mut damaged);
        found += usize::from(run(&damaged) != run(&whole));
    }
    assert!(found > 120, "{found} of 200");
}
