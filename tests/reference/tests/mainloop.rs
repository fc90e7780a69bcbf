//! What the program `mainloop` printed: the same calls on a hub by value and on one that stays in its memory. `rt ci` holds the program to the file that is read here.
use reference::listing::{changes_found, parse, uses, wrong, Line};
use reference::machine::Call;
use std::collections::BTreeMap;
use std::path::Path;

/// The list by value, and the list in place.
fn printed() -> (String, String) {
    let file = Path::new(env!("CARGO_MANIFEST_DIR")).join("../../crates/mainloop/stdout");
    let text = std::fs::read_to_string(file).unwrap();
    let (by_value, in_place) = text
        .strip_prefix("by value\n")
        .unwrap()
        .split_once("in place\n")
        .unwrap();
    (by_value.to_string(), in_place.to_string())
}

#[test]
fn both_lists_are_the_same() {
    let (by_value, in_place) = printed();
    assert_eq!(by_value, in_place);
}

#[test]
fn every_answer_and_every_byte_is_the_plain_machines() {
    let (_, in_place) = printed();
    assert_eq!(in_place.lines().count(), 653);
    assert_eq!(wrong(&in_place), []);
}

/// What was fed shows in an answer only where the ticket is drawn from later.
#[test]
fn each_round_feeds_its_message() {
    let (_, in_place) = printed();
    let fed: Vec<(Vec<u8>, bool)> = in_place
        .lines()
        .filter_map(|line| match parse(line) {
            Line::Call(Call::Feed { bytes, .. }, answer) => Some((bytes, answer.refusal == 0)),
            _ => None,
        })
        .collect();
    let message = [
        255, 0, 1, 128, 127, 64, 32, 16, 8, 4, 2, 1, 90, 165, 3, 7, 15, 31, 63, 127,
    ];
    assert_eq!(fed.len(), 300);
    assert!(fed[..150].iter().all(|feed| feed.0 == [129, 66, 36]));
    assert!(fed[150..].iter().all(|feed| feed.0 == message));
    let accepted = |feeds: &[(Vec<u8>, bool)]| feeds.iter().filter(|feed| feed.1).count();
    assert!(accepted(&fed[..150]) > 50 && accepted(&fed[150..]) > 20);
}

/// What was fed is seen in what is drawn at the end.
#[test]
fn tickets_that_were_fed_are_drawn_from() {
    let (_, in_place) = printed();
    let uses = uses(&in_place);
    for (mode, least) in [(2, 1), (3, 2)] {
        let drawn = uses[&mode].drawn.iter().filter(|n| **n > 8).count();
        assert!(uses[&mode].fed == 20 && drawn >= least, "{mode} {uses:?}");
    }
}

/// A check between the rounds closes its ticket: those before it feed the ticket, and those after it are refused with 12.
#[test]
fn a_checked_ticket_takes_no_more() {
    let (_, in_place) = printed();
    let mut judged = false;
    let mut refusals = [Vec::new(), Vec::new()];
    for line in in_place.lines() {
        match parse(line) {
            Line::Call(Call::Check { ticket: 4, .. }, answer) => judged = answer.refusal == 0,
            Line::Call(Call::Feed { ticket: 4, .. }, answer) => {
                refusals[judged as usize].push(answer.refusal)
            }
            _ => (),
        }
    }
    assert!(judged);
    assert_eq!(refusals, [vec![0; 9], vec![12; 9]]);
}

#[test]
fn calls_are_accepted_and_refused() {
    let (_, in_place) = printed();
    let mut counts = BTreeMap::new();
    for line in in_place.lines() {
        if let Line::Call(_, answer) = parse(line) {
            let name = line.split(' ').next().unwrap().to_string();
            *counts.entry((name, answer.refusal)).or_insert(0) += 1;
        }
    }
    for (name, refusal) in [
        ("feed", 0),
        ("feed", 11),
        ("feed", 12),
        ("feed", 15),
        ("close", 0),
        ("close", 11),
        ("close", 12),
        ("draw", 0),
    ] {
        assert!(
            counts.get(&(name.to_string(), refusal)) > Some(&2),
            "{name} {refusal}"
        );
    }
}

#[test]
fn a_changed_answer_is_found() {
    let (_, in_place) = printed();
    let tried = changes_found(&in_place);
    assert!(tried["refusal"] > 300 && tried["passed"] > 300 && tried["buffer"] > 20);
}
