//! Who calls a function, where no contract can say it.
use docs::{code, crates};

/// The calls of a function, of whatever instance of it, in all crates: each with its line of code from there on.
fn calls(function: &str) -> Vec<String> {
    let mut calls = Vec::new();
    for line in crates().iter().flat_map(|name| code(name)) {
        let called = |(at, _): &(usize, &str)| {
            let (before, behind) = (&line[..*at], &line[at + function.len()..]);
            (behind.starts_with('(') || behind.starts_with("::<")) && !before.ends_with("fn ")
        };
        let found = line.match_indices(function).filter(called);
        calls.extend(found.map(|(at, _)| line[at..].to_string()));
    }
    calls
}

/// The compiler puts a function into its caller where that is the only one, which these are fast by: docs/ARCHITECTURE.md, "What keeps records in registers".
#[test]
fn small_feeds_have_one_caller() {
    for function in ["absorb_small", "feed_record"] {
        let calls = calls(function);
        assert_eq!(calls.len(), 1, "{function} is in {calls:#?}");
    }
    let mut fast = calls("feed_by");
    fast.retain(|call| !call.starts_with("feed_by::<false>("));
    assert_eq!(fast.len(), 1, "feed_by is in {fast:#?}");
}

/// The one line of the main loop that has a text, by its number.
fn line_of_the_main_loop(text: &str) -> usize {
    let lines = code("mainloop");
    let with: Vec<usize> = (0..lines.len())
        .filter(|&i| lines[i].contains(text))
        .collect();
    assert_eq!(with.len(), 1, "{text} is in lines {with:?}");
    with[0]
}

/// Both lists of `mainloop` have one promise, so that one that never lends its hub would meet it.
#[test]
fn the_main_loop_serves_in_place() {
    let line = line_of_the_main_loop;
    assert_eq!(calls("controller::feed").len(), 1);
    assert_eq!(calls("controller::close").len(), 1);
    assert!(line("impl Calling for ByValue ") < line("impl Calling for InPlace "));
    assert!(line("impl Calling for InPlace ") < line("controller::feed("));
    assert!(line("impl Calling for InPlace ") < line("controller::close("));
    assert!(line("C::feed(&mut hub, ") < line("C::close(&mut hub, "));
    assert!(line("list::<ByValue>(") < line("list::<InPlace>("));
    assert_eq!(calls("serve::<C>").len(), 1);
    assert_eq!(calls("rounds::<C>").len(), 2);
}
