//! The calls that the program `day` made and what it printed of them, each worked out anew by the plain machine. `rt ci` holds the program to the file that is read here.
use reference::listing::{changes_found, parse, uses, wrong, Line};
use reference::machine::Call;
use reference::MODES;
use std::collections::{BTreeMap, BTreeSet};
use std::path::Path;

fn printed() -> String {
    let file = Path::new(env!("CARGO_MANIFEST_DIR")).join("../../crates/day/stdout");
    std::fs::read_to_string(file).unwrap()
}

#[test]
fn every_answer_and_every_byte_is_the_plain_machines() {
    let text = printed();
    assert_eq!(text.lines().count(), 328);
    assert_eq!(wrong(&text), []);
}

#[test]
fn every_kind_of_call_and_refusal_occurs() {
    let mut refusals = BTreeSet::new();
    let mut accepted = BTreeSet::new();
    let mut verdicts = BTreeSet::new();
    for line in printed().lines() {
        if let Line::Call(call, answer) = parse(line) {
            let name = line.split(' ').next().unwrap().to_string();
            if answer.refusal == 0 {
                accepted.insert(name);
                if matches!(call, Call::Check { .. }) {
                    verdicts.insert(answer.passed);
                }
            } else {
                refusals.insert(answer.refusal);
            }
        }
    }
    // 14 is out of a run's reach: 4,294,967,295 tickets.
    assert_eq!(
        refusals.into_iter().collect::<Vec<_>>(),
        [1, 2, 3, 4, 11, 12, 13, 15, 16, 17, 18, 21]
    );
    assert_eq!(
        accepted.into_iter().collect::<Vec<_>>(),
        ["check", "close", "draw", "feed", "open", "sum"]
    );
    assert_eq!(verdicts.into_iter().collect::<Vec<_>>(), [false, true]);
}

/// A check closes its ticket: after a tag that passed, and after one that failed, a call on the ticket is refused with 12.
#[test]
fn tickets_are_called_on_after_each_verdict() {
    let mut verdicts = BTreeMap::new();
    let mut refused = BTreeSet::new();
    for line in printed().lines() {
        match parse(line) {
            Line::Empty => verdicts.clear(),
            Line::Often(..) => (),
            Line::Call(call, answer) => match (&call, answer.refusal) {
                (Call::Check { ticket, .. }, 0) => {
                    verdicts.insert(*ticket, answer.passed);
                }
                (_, 12) => refused.extend(call.ticket().and_then(|t| verdicts.get(&t).copied())),
                _ => (),
            },
        }
    }
    assert_eq!(refused.into_iter().collect::<Vec<_>>(), [false, true]);
}

/// Every mode is fed more than a block at once; and a draw crosses a block, but in the MAC, which gives no more than one.
#[test]
fn blocks_are_crossed_in_every_mode() {
    let uses = uses(&printed());
    for mode in MODES {
        let drawn = if mode.number == 2 {
            12
        } else {
            mode.draw_rate + 1
        };
        let of_mode = uses.get(&mode.number).expect("a ticket of the mode");
        let most = of_mode.drawn.iter().max();
        assert!(
            of_mode.fed > mode.feed_rate && most >= Some(&drawn),
            "mode {}",
            mode.number
        );
    }
}

#[test]
fn a_changed_answer_is_found() {
    let text = printed();
    let first: String = text.split_inclusive('\n').take(200).collect();
    let tried = changes_found(&first);
    assert!(tried["refusal"] > 150 && tried["passed"] > 150 && tried["buffer"] > 20);
}
