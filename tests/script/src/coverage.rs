//! What a script reaches: each call with each of its answers, and what lies at the limits.
use reference::machine::{Answer, Call, MOST_FED, TAG_LENGTHS};
use reference::{mac, Mode, MODES};
use std::collections::BTreeSet;

/// Every answer to each call that a script can get. Out of its reach are the refusals 3 and 14.
const ANSWERS: [(&str, &[&str]); 6] = [
    ("open", &["ok", "no 1", "no 2", "no 13", "no 21"]),
    ("feed", &["ok", "no 11", "no 12", "no 15", "no 16"]),
    ("draw", &["ok", "no 11", "no 12", "no 17"]),
    (
        "check",
        &["pass", "fail", "no 11", "no 12", "no 18", "no 4"],
    ),
    ("close", &["ok", "no 11", "no 12"]),
    ("sum", &["ok"]),
];

/// The calls that have a limit, and what may come there. A MAC's is its tag length.
const LIMITED: [&str; 8] = [
    "feed",
    "draw 1",
    "draw 2 with tags of 8",
    "draw 2 with tags of 16",
    "draw 3",
    "draw 4",
    "draw 5",
    "draw 6",
];
const AT_A_LIMIT: [&str; 4] = [
    "to the limit",
    "of nothing at the limit",
    "past the limit where some is left",
    "past the limit where none is left",
];

/// What a check on an open ticket is answered, and later calls on that ticket, which show that a verdict has closed it and a refusal has not.
const CHECKED: [&str; 4] = ["pass", "fail", "no 4", "no 18"];
const NEXT: [&str; 4] = ["then feed", "then draw", "then check", "then close"];

const OTHERS: [&str; 24] = [
    "open 2 with tags of 8",
    "open 2 with tags of 9",
    "open 2 with tags of 10",
    "open 2 with tags of 11",
    "open 2 with tags of 12",
    "open 2 with tags of 13",
    "open 2 with tags of 14",
    "open 2 with tags of 15",
    "open 2 with tags of 16",
    "open 2 with too short tags",
    "open 2 with too long tags",
    "pass with tags of 8",
    "pass with tags of 16",
    "fail with a longer tag that was cut",
    "no 4 for a tag that other tickets take",
    "open the sixteenth",
    "open in a place that served before",
    "pass after a draw",
    "fail after a draw",
    "pass between two sums",
    "fail between two sums",
    "pass with sixteen open, then open",
    "fail with sixteen open, then open",
    "stop",
];

/// What has not been reached of all that there is.
pub fn missing(reached: &BTreeSet<String>) -> Vec<String> {
    let mut all: Vec<String> = OTHERS.map(String::from).into();
    for (call, answers) in ANSWERS
        .iter()
        .chain(&LIMITED.map(|call| (call, &AT_A_LIMIT[..])))
        .chain(&CHECKED.map(|answer| (answer, &NEXT[..])))
    {
        all.extend(answers.iter().map(|answer| format!("{call} {answer}")));
    }
    all.retain(|what| !reached.contains(what));
    all
}

/// Of a MAC all that was fed is kept, so that a tag can be told from another one that was cut; of a ticket that no close has closed, what its last check was answered.
struct Ticket {
    mode: Mode,
    key: Vec<u8>,
    message: Vec<u8>,
    fed: usize,
    drawn: usize,
    checked: Option<String>,
}

impl Ticket {
    /// A draw, by the ticket's mode and, of a MAC, by its tag length.
    fn draw(&self) -> String {
        match self.mode.number {
            2 => format!("draw 2 with tags of {}", self.mode.tag_length()),
            number => format!("draw {number}"),
        }
    }
}

/// Looks on while a script runs.
#[derive(Default)]
pub struct Watch {
    pub reached: BTreeSet<String>,
    tickets: Vec<Ticket>,
    /// How many of them are open.
    open: usize,
    /// What the last two calls were, with their answers.
    last: [String; 2],
    /// The verdict that closed one of sixteen, until a place is taken or one more is free.
    freed: Option<&'static str>,
}

impl Watch {
    pub fn see(&mut self, call: &Call, answer: &Answer) {
        let name = match call {
            Call::Open { .. } => "open",
            Call::Feed { .. } => "feed",
            Call::Draw { .. } => "draw",
            Call::Check { .. } => "check",
            Call::Close { .. } => "close",
            Call::Sum => "sum",
        };
        let answered = match (call, answer.refusal) {
            (Call::Check { .. }, 0) if answer.passed => "pass".to_string(),
            (Call::Check { .. }, 0) => "fail".to_string(),
            (_, 0) => "ok".to_string(),
            (_, refusal) => format!("no {refusal}"),
        };
        if let Some(ticket) = call.ticket() {
            self.called(ticket, name);
        }
        match (call, answer.refusal) {
            (
                Call::Open {
                    mode,
                    key,
                    tag_length,
                },
                0,
            ) => self.opened(*mode as usize, key, *tag_length as usize),
            (Call::Open { tag_length, .. }, 21) => {
                let wrong = if *tag_length < 8 { "short" } else { "long" };
                self.reach(&format!("open 2 with too {wrong} tags"));
            }
            (Call::Feed { ticket, bytes }, 0 | 16) => self.fed(*ticket, bytes),
            (Call::Draw { ticket, count, .. }, 0 | 17) => self.drawn(*ticket, *count as usize),
            (Call::Check { ticket, tag }, 0) => self.judged(*ticket, tag, answer.passed),
            (Call::Check { tag, .. }, 4) if TAG_LENGTHS.contains(&tag.len()) => {
                self.reach("no 4 for a tag that other tickets take");
            }
            (Call::Close { ticket }, 0) => {
                self.ticket(*ticket).checked = None;
                self.closed(None);
            }
            (Call::Sum, _) => self.summed(),
            _ => (),
        }
        if let (Call::Check { ticket, .. }, 0 | 4 | 18) = (call, answer.refusal) {
            self.ticket(*ticket).checked = Some(answered.clone());
        }
        let seen = format!("{name} {answered}");
        self.reach(&seen);
        self.last.rotate_left(1);
        self.last[1] = seen;
    }

    /// Where all that was printed ends.
    pub fn end(&mut self, printed: &[u8]) {
        let last = printed.split(|byte| *byte == b'\n').nth_back(1);
        if last.is_some_and(|line| line.starts_with(b"stop ")) {
            self.reach("stop");
        }
    }

    fn reach(&mut self, what: &str) {
        self.reached.insert(what.to_string());
    }

    fn opened(&mut self, mode: usize, key: &[u8], tag_length: usize) {
        let mut mode = *MODES[mode - 1];
        if mode.number == 2 {
            mode = Mode::mac(tag_length);
            self.reach(&format!("open 2 with tags of {tag_length}"));
        }
        self.tickets.push(Ticket {
            mode,
            key: key.to_vec(),
            message: Vec::new(),
            fed: 0,
            drawn: 0,
            checked: None,
        });
        self.open += 1;
        if self.open == 16 {
            self.reach("open the sixteenth");
        }
        if self.tickets.len() > 16 {
            self.reach("open in a place that served before");
        }
        if let Some(verdict) = self.freed.take() {
            self.reach(&format!("{verdict} with sixteen open, then open"));
        }
    }

    /// A ticket was closed: by a check, if there is a verdict.
    fn closed(&mut self, verdict: Option<&'static str>) {
        self.freed = verdict.filter(|_| self.open == 16);
        self.open -= 1;
    }

    /// A call on a ticket, which may have been checked before.
    fn called(&mut self, number: u32, name: &str) {
        let place = (number as usize).wrapping_sub(1);
        let checked = self.tickets.get(place).and_then(|t| t.checked.clone());
        if let Some(answered) = checked {
            self.reach(&format!("{answered} then {name}"));
        }
    }

    fn summed(&mut self) {
        let last = self.last.each_ref().map(String::as_str);
        if let ["sum ok", "check pass" | "check fail"] = last {
            self.reach(&format!("{} between two sums", &last[1][6..]));
        }
    }

    fn ticket(&mut self, number: u32) -> &mut Ticket {
        &mut self.tickets[number as usize - 1]
    }

    /// A count where so much is left up to a limit; gives whether the limit lets it through.
    fn at_a_limit(&mut self, name: &str, count: usize, left: usize) -> bool {
        if count > left {
            let rest = if left == 0 { "none" } else { "some" };
            self.reach(&format!("{name} past the limit where {rest} is left"));
        } else if left == 0 {
            self.reach(&format!("{name} of nothing at the limit"));
        } else if count == left {
            self.reach(&format!("{name} to the limit"));
        }
        count <= left
    }

    fn fed(&mut self, number: u32, bytes: &[u8]) {
        let left = MOST_FED - self.ticket(number).fed;
        if self.at_a_limit("feed", bytes.len(), left) {
            let ticket = self.ticket(number);
            ticket.fed += bytes.len();
            if ticket.mode.number == 2 {
                ticket.message.extend(bytes);
            }
        }
    }

    fn drawn(&mut self, number: u32, count: usize) {
        let ticket = self.ticket(number);
        let (name, left) = (ticket.draw(), ticket.mode.most_drawn - ticket.drawn);
        if self.at_a_limit(&name, count, left) {
            self.ticket(number).drawn += count;
        }
    }

    fn judged(&mut self, number: u32, tag: &[u8], passed: bool) {
        let verdict = if passed { "pass" } else { "fail" };
        let ticket = self.ticket(number);
        // What it costs to tell a cut tag is spent on short messages alone.
        let cut = !passed && tag.len() < 16 && ticket.message.len() < 1_000 && {
            let key = ticket.key[..].try_into().expect("sixteen bytes");
            mac(key, &ticket.message, 16).starts_with(tag)
        };
        if ticket.drawn > 0 {
            self.reach(&format!("{verdict} after a draw"));
        }
        if passed {
            self.reach(&format!("pass with tags of {}", tag.len()));
        }
        if cut {
            self.reach("fail with a longer tag that was cut");
        }
        self.closed(Some(verdict));
    }
}
