//! Long inputs: a ticket of each mode fed and drawn to its limits in uneven scraps, and very many tickets.
use reference::machine::MOST_FED;
use reference::numbers::Numbers;
use reference::script::field;
use reference::{mac, permute, sponge, Mode, HASH, HASHA, KEY, MAC, MODES, PRF, XOF, XOFA};
use script::{assert_agrees, assert_same, program, through_a_pipe, Talk, OPEN_MAC};

/// Counts that go up to a limit in uneven parts of at most `longest`, and whether each is accepted. At the end stand one more than is left and far more, all but one of it, two, the last one, one
/// more, and none.
fn up_to(limit: usize, longest: usize, numbers: &mut Numbers) -> Vec<(usize, bool)> {
    let parts = numbers.parts(limit, longest);
    let left = limit - parts.iter().sum::<usize>();
    let mut counts: Vec<(usize, bool)> = parts.into_iter().map(|part| (part, true)).collect();
    counts.extend([(left + 1, false), (1_024, false), (left - 1, true)]);
    counts.extend([(2, false), (1, true), (1, false), (0, true)]);
    counts
}

/// Feeds ticket 1 all of a message that is as long as the limit.
fn feed_all(talk: &mut Talk, mode: &Mode, message: &[u8], numbers: &mut Numbers) {
    let mut fed = 0;
    for (count, accepted) in up_to(message.len(), 1_000, numbers) {
        let from = if accepted { fed } else { 0 };
        let line = format!("feed 1 {}", field(&message[from..from + count]));
        if accepted {
            fed += count;
            talk.line(line, format!("ok {} -", mode.runs(fed, None)));
        } else {
            talk.line(line, "no 16 -");
        }
    }
}

/// Draws from ticket 1, to which all was fed, all of an output that is as long as the limit.
fn draw_all(talk: &mut Talk, mode: &Mode, output: &[u8], numbers: &mut Numbers) {
    let mut drawn = 0;
    for (count, accepted) in up_to(output.len(), 1_000.min(output.len() / 4), numbers) {
        let line = format!("draw 1 {count:04x}");
        if accepted {
            let bytes = field(&output[drawn..drawn + count]);
            drawn += count;
            let runs = mode.runs(MOST_FED, Some(drawn));
            talk.line(line, format!("ok {runs} {bytes}"));
        } else {
            talk.line(line, "no 17 -");
        }
    }
}

fn check(tag: &[u8]) -> String {
    format!("check 1 {}", field(tag))
}

/// Checks on ticket 1 that are refused: of a MAC the tag a byte shorter and a byte longer.
fn refused_checks(talk: &mut Talk, mode: &Mode, output: &[u8]) {
    if mode.number == MAC.number {
        talk.line(check(&output[1..]), "no 4 -")
            .line(check(&[output, &[0]].concat()), "no 4 -");
    } else {
        talk.line(check(&output[..8]), "no 18 -")
            .line(check(&output[..16]), "no 18 -");
    }
}

/// Closes ticket 1 after so many runs: a MAC by a check, and any other by a close. The tag is right where it has sixteen bytes, and else its last bit is not.
fn close(talk: &mut Talk, mode: &Mode, output: &[u8], runs: u64) {
    if mode.number != MAC.number {
        talk.line("close 1 -", format!("ok {runs} -"));
    } else if mode.tag_length() == 16 {
        talk.line(check(output), format!("pass {runs} -"));
    } else {
        let (last, rest) = output.split_last().expect("a tag");
        let wrong = [rest, &[last ^ 1]].concat();
        talk.line(check(&wrong), format!("fail {runs} -"));
    }
}

/// A script in which ticket 1 is fed 16,777,216 bytes, and all that may be drawn from it.
fn fed_to_the_limit(mode: &Mode, numbers: &mut Numbers) -> (Talk, Vec<u8>) {
    let key: [u8; 16] = numbers.bytes(16).try_into().unwrap();
    let message = numbers.bytes(MOST_FED);
    let (output, _) = sponge(permute, mode, &key, &message, mode.most_drawn);
    let mut talk = Talk::default();
    let open = format!("open {} {}", mode.number, field(&mode.opened_by(&key)));
    talk.line(open, "ok 1 -");
    feed_all(&mut talk, mode, &message, numbers);
    (talk, output)
}

/// A ticket that is fed 16,777,216 bytes, drawn from as far as its mode goes, and closed; checks are refused before the draws and after them.
fn to_the_limits(mode: &Mode) {
    let mut numbers = Numbers(mode.number.into());
    let (mut talk, output) = fed_to_the_limit(mode, &mut numbers);
    let runs = mode.runs(MOST_FED, Some(mode.most_drawn));
    refused_checks(&mut talk, mode, &output);
    draw_all(&mut talk, mode, &output, &mut numbers);
    refused_checks(&mut talk, mode, &output);
    // 15 before 16.
    talk.line("feed 1 -", "no 15 -")
        .line("feed 1 00", "no 15 -")
        .line("sum 0 -", format!("ok {runs} -"));
    close(&mut talk, mode, &output, runs);
    talk.line("draw 1 0000", "no 12 -")
        .line("sum 0 -", format!("ok {runs} -"))
        .assert();
}

/// A check that ends feeding at the limit, and closes the ticket.
#[test]
fn a_check_at_the_limit() {
    let (mut talk, tag) = fed_to_the_limit(&MAC, &mut Numbers(8));
    let runs = MAC.runs(MOST_FED, Some(0));
    close(&mut talk, &MAC, &tag, runs);
    // 12 before 16.
    talk.line("feed 1 00", "no 12 -")
        .line(check(&tag), "no 12 -")
        .line("sum 0 -", format!("ok {runs} -"))
        .assert();
}

#[test]
fn the_prf_to_its_limits() {
    to_the_limits(&PRF);
}

#[test]
fn the_mac_to_its_limits() {
    to_the_limits(&MAC);
}

#[test]
fn the_mac_with_short_tags_to_its_limits() {
    to_the_limits(&Mode::mac(8));
}

#[test]
fn the_hash_to_its_limits() {
    to_the_limits(&HASH);
}

#[test]
fn the_xof_to_its_limits() {
    to_the_limits(&XOF);
}

#[test]
fn the_hasha_to_its_limits() {
    to_the_limits(&HASHA);
}

#[test]
fn the_xofa_to_its_limits() {
    to_the_limits(&XOFA);
}

/// Ten thousand tickets, sixteen of them open at a time: each is fed and drawn from in turns with the others, a seventeenth is refused, and the place of any of them serves the next. A close
/// makes it free, and of half the MACs a check.
#[test]
fn ten_thousand_tickets() {
    const TICKETS: usize = 10_000;
    let mut numbers = Numbers(13);
    let mut script = b"call number bytes\n".to_vec();
    let mut open: Vec<(usize, Mode)> = Vec::new();
    let mut checked = 0;
    for ticket in 1..=TICKETS {
        let mut mode = *numbers.pick(&MODES);
        if mode.number == MAC.number {
            mode = Mode::mac(numbers.between(8, 16));
        }
        let key = numbers.bytes(16);
        let line = format!("open {} {}\n", mode.number, field(&mode.opened_by(&key)));
        if open.len() == 16 {
            let (closed, mode) = open.swap_remove(numbers.below(16));
            let mut close = format!("close {closed} -");
            if mode.number == MAC.number && numbers.one_in(2) {
                close = format!(
                    "check {closed} {}",
                    field(&numbers.bytes(mode.tag_length()))
                );
                checked += 1;
            }
            script.extend(format!("{line}{close}\nfeed {closed} -\n").bytes());
        }
        script.extend(line.bytes());
        open.push((ticket, mode));
        for _ in 0..3 {
            let (fed, drawn) = (numbers.pick(&open).0, numbers.pick(&open).0);
            let length = numbers.below(50);
            let bytes = field(&numbers.bytes(length));
            script.extend(format!("feed {fed} {bytes}\n").bytes());
            if numbers.one_in(3) {
                script.extend(format!("draw {drawn} {:04x}\n", numbers.below(40)).bytes());
            }
        }
        if ticket % 100 == 0 {
            script.extend(b"sum 0 -\n");
        }
    }
    let printed = String::from_utf8(assert_agrees(&script)).unwrap();
    let count = |answer: &str| printed.lines().filter(|line| *line == answer).count();
    assert_eq!(count(&format!("ok {TICKETS} -")), 1);
    // One for each open that came while sixteen were open, and for each feed after a close or a check.
    assert_eq!(count("no 13 -"), TICKETS - 16);
    assert_eq!(count("no 12 -"), TICKETS - 16);
    // Tags that nobody computed.
    let failed = printed.lines().filter(|line| line.starts_with("fail "));
    assert_eq!((failed.count(), checked > 500), (checked, true));
}

/// Nearly 500,000 tickets, one after the other, each closed by a close, by a right tag or by a wrong one. The reference, which keeps every entry, is not asked.
#[test]
fn half_a_million_tickets() {
    let right = mac(&KEY, &[], 16);
    let wrong = [&right[..15], &[right[15] ^ 1]].concat();
    let (right, wrong) = (field(&right), field(&wrong));
    let mut talk = Talk::default();
    for ticket in 1..=499_999 {
        talk.line(OPEN_MAC, format!("ok {ticket} -"));
        match ticket % 3 {
            0 => talk.line(format!("close {ticket} -"), "ok 1 -"),
            1 => talk.line(format!("check {ticket} {right}"), "pass 2 -"),
            _ => talk.line(format!("check {ticket} {wrong}"), "fail 2 -"),
        };
    }
    // One run of each ticket, and one more of the 333,333 that were checked.
    talk.line("sum 0 -", "ok 833332 -");
    let printed = through_a_pipe(&program(), &talk.script);
    assert_same(&talk.script, &printed, &talk.expected);
}
