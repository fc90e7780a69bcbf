//! Days of random calls, which reach every answer.
use crate::NAMES;
use reference::machine::{MOST_FED, TAG_LENGTHS};
use reference::numbers::Numbers;
use reference::script::field;
use reference::{mac, Mode, MAC, MODES};

/// What the writer of a script remembers of a ticket. It only guides what is written next; what is right, the reference says.
struct Ticket {
    mode: Mode,
    key: [u8; 16],
    fed: Vec<u8>,
    feeding: bool,
    open: bool,
    drawn: usize,
}

/// A script under way, and how its day goes.
struct Day<'a> {
    numbers: &'a mut Numbers,
    text: Vec<u8>,
    /// How many lines of values it has.
    lines: usize,
    tickets: Vec<Ticket>,
    /// One argument in so many is meant to be wrong.
    wrong: usize,
    /// The most bytes that a feed has.
    feed: usize,
    /// How often each call is made: open, feed, draw, check, close, sum.
    weights: [usize; 6],
}

/// A script of so many lines of values, or a few more where a check brings others.
pub fn day(numbers: &mut Numbers, lines: usize) -> Vec<u8> {
    let mut day = Day::begin(numbers);
    day.calls(lines);
    day.end()
}

/// A script that begins with a ticket of a mode close to a limit: of the bytes drawn, or of the bytes fed.
pub fn day_at_a_limit(numbers: &mut Numbers, mode: &Mode, drawing: bool) -> Vec<u8> {
    let mut day = Day::begin(numbers);
    day.feed = 1_024;
    let key: [u8; 16] = day.numbers.bytes(16).try_into().expect("sixteen bytes");
    day.line_of_bytes("open", mode.number as usize, &mode.opened_by(&key));
    day.tickets.push(Ticket::new(*mode, key));
    let limit = if drawing { mode.most_drawn } else { MOST_FED };
    // Few other tickets, and few calls that would end it.
    day.weights = if drawing {
        [1, 10, 60, 1, 1, 5]
    } else {
        [1, 60, 1, 1, 1, 5]
    };
    for count in day.numbers.parts(limit, 1_024) {
        if drawing {
            day.draw_from(1, count);
        } else {
            day.feed_to(1, count);
        }
    }
    day.calls(300);
    day.end()
}

impl Ticket {
    fn new(mode: Mode, key: [u8; 16]) -> Ticket {
        Ticket {
            mode,
            key,
            fed: Vec::new(),
            feeding: true,
            open: true,
            drawn: 0,
        }
    }

    /// The ticket that is opened in a mode by such bytes, if they are right.
    fn opened_by(mode: Mode, mut bytes: Vec<u8>) -> Option<Ticket> {
        let mode = match mode.number {
            2 => Mode::mac(bytes.pop()?.into()),
            _ => mode,
        };
        let tags = mode.number != 2 || TAG_LENGTHS.contains(&mode.tag_length());
        let right = mode.given(&[0; 16]).len() == bytes.len() && tags;
        bytes.resize(16, 0);
        right.then(|| Ticket::new(mode, bytes.try_into().expect("sixteen bytes")))
    }

    /// As a rule the ticket's tag; or the first bytes of the tag of sixteen, cut to the ticket's length, or the tag or its first bytes in another length.
    fn tag(&self, kind: usize, other: usize) -> Vec<u8> {
        let own = self.mode.tag_length();
        let (of, length) = match kind {
            0 => (16, own),
            1 => (other, other),
            2 => (own, other.min(own)),
            _ => (own, own),
        };
        let mut tag = mac(&self.key, &self.fed, of);
        tag.truncate(length);
        tag
    }
}

impl Day<'_> {
    fn begin(numbers: &mut Numbers) -> Day<'_> {
        Day {
            text: NAMES.to_vec(),
            lines: 0,
            tickets: Vec::new(),
            wrong: numbers.pick(&[3, 10, 30, 100_000]),
            feed: numbers.pick(&[4, 40, 40, 200, 1_024]),
            weights: [25, 40, 20, 12, 5, 5].map(|w| w * numbers.pick(&[1, 1, 2, 4]) / 2),
            numbers,
        }
    }

    fn calls(&mut self, lines: usize) {
        let end = self.lines + lines;
        while self.lines < end {
            self.call();
        }
    }

    /// The last newline may be missing.
    fn end(mut self) -> Vec<u8> {
        if self.numbers.one_in(4) {
            self.text.pop();
        }
        self.text
    }

    fn line(&mut self, name: &str, number: usize, field: &str) {
        self.text
            .extend(format!("{name} {number} {field}\n").bytes());
        self.lines += 1;
    }

    fn line_of_bytes(&mut self, name: &str, number: usize, bytes: &[u8]) {
        self.line(name, number, &field(bytes));
    }

    fn is_wrong(&mut self) -> bool {
        self.numbers.one_in(self.wrong)
    }

    fn call(&mut self) {
        // Where nothing is open, every call on a ticket is refused, so that most calls are opens.
        if self.tickets.iter().all(|t| !t.open) && !self.numbers.one_in(4) {
            return self.open();
        }
        let mut which = self.numbers.below(self.weights.iter().sum());
        let mut call = 0;
        while which >= self.weights[call] {
            which -= self.weights[call];
            call += 1;
        }
        match call {
            0 => self.open(),
            1 => self.feed(),
            2 => self.draw(),
            3 => self.check(),
            4 => self.close(),
            _ => self.sum(),
        }
    }

    fn open(&mut self) {
        // More MACs than others, since a check closes them.
        let mut mode = if self.numbers.one_in(2) {
            MAC
        } else {
            *self.numbers.pick(&MODES)
        };
        if mode.number == 2 {
            let any = self.numbers.between(8, 16);
            mode = Mode::mac(self.numbers.pick(&[8, 16, any, any]));
        }
        let mut number = mode.number as usize;
        let mut bytes = mode.opened_by(&self.numbers.bytes(16));
        if self.is_wrong() {
            bytes = self.wrong_bytes(&mode, bytes);
        }
        if self.is_wrong() {
            number = self.numbers.pick(&[0, 7, 257, 258, 65_537, 4_294_967_295]);
        }
        self.line_of_bytes("open", number, &bytes);
        let open = self.tickets.iter().filter(|t| t.open).count();
        if number == mode.number as usize && open < 16 {
            self.tickets.extend(Ticket::opened_by(mode, bytes));
        }
    }

    /// The bytes of an open with a key of another length, or in mode 2 with another tag length, which may be a right one, or without one.
    fn wrong_bytes(&mut self, mode: &Mode, mut bytes: Vec<u8>) -> Vec<u8> {
        // With a tag length after it the longest is as long as a field may be.
        let length = self.numbers.pick(&[0, 1, 8, 15, 16, 17, 32, 1_023]);
        let key = self.numbers.bytes(length);
        let Some(last) = bytes.pop().filter(|_| mode.number == 2) else {
            return key;
        };
        let any = self.numbers.bytes(1)[0];
        let wrong = self.numbers.pick(&[0, 1, 7, 17, 18, 24, 255, any]);
        match self.numbers.below(6) {
            0 => [&key[..], &[last]].concat(),
            1 => [&key[..], &[wrong]].concat(),
            2 => bytes,
            3 => Vec::new(),
            _ => [&bytes[..], &[wrong]].concat(),
        }
    }

    /// The number of a ticket, as a rule of an open one; of those, one that is wanted, if there is any.
    fn ticket(&mut self, wanted: impl Fn(&Ticket) -> bool) -> usize {
        let issued = self.tickets.len();
        if self.is_wrong() {
            let any = self.numbers.below(issued + 1);
            let past = [0, issued + 1, issued + 2, 4_294_967_295, any, any];
            return self.numbers.pick(&past);
        }
        let open = |wanted: &dyn Fn(&Ticket) -> bool| -> Vec<usize> {
            let numbered = self.tickets.iter().zip(1..);
            let open = numbered.filter(|(t, _)| t.open && wanted(t));
            open.map(|(_, number)| number).collect()
        };
        let (best, all) = (open(&wanted), open(&|_| true));
        if !best.is_empty() && !self.numbers.one_in(6) {
            self.numbers.pick(&best)
        } else if !all.is_empty() {
            self.numbers.pick(&all)
        } else {
            self.numbers.below(issued + 2)
        }
    }

    /// The ticket of a number, if it is open.
    fn known(&mut self, number: usize) -> Option<&mut Ticket> {
        let ticket = self.tickets.get_mut(number.checked_sub(1)?)?;
        ticket.open.then_some(ticket)
    }

    fn feed(&mut self) {
        let number = self.ticket(|t| t.feeding);
        let left = self.known(number).map_or(0, |t| MOST_FED - t.fed.len());
        let any = self.numbers.below(self.feed + 1);
        let length = match left {
            0..=1_024 => self.numbers.pick(&[0, 1, any, left, left + 1]),
            _ => self.numbers.pick(&[0, 1, 7, 8, 9, 31, 32, 33, any, any]),
        };
        self.feed_to(number, length.min(self.feed));
    }

    fn feed_to(&mut self, number: usize, length: usize) {
        let bytes = self.numbers.bytes(length);
        self.line_of_bytes("feed", number, &bytes);
        if let Some(ticket) = self.known(number) {
            if ticket.feeding && ticket.fed.len() + length <= MOST_FED {
                ticket.fed.extend(bytes);
            }
        }
    }

    fn draw(&mut self) {
        let late = self.numbers.one_in(2);
        let number = self.ticket(|t| !late || !t.feeding);
        let left = self
            .known(number)
            .map_or(0, |t| t.mode.most_drawn - t.drawn);
        let any = self.numbers.below(1_025);
        let few = self.numbers.below(40);
        let count = match self.numbers.below(20) {
            0..=5 => self.numbers.pick(&[0, 1, 7, 8, 9, 15, 16, 17, 31, 32, 33]),
            6..=12 => few,
            13 => any,
            14 => left,
            15 => left + 1,
            _ => self.numbers.below(left.min(64) + 1),
        };
        self.draw_from(number, count.min(1_024));
    }

    fn draw_from(&mut self, number: usize, count: usize) {
        self.line("draw", number, &format!("{count:04x}"));
        if let Some(ticket) = self.known(number) {
            if ticket.drawn + count <= ticket.mode.most_drawn {
                ticket.feeding = false;
                ticket.drawn += count;
            }
        }
    }

    fn check(&mut self) {
        // As a rule of a ticket that was fed or drawn from, since after a check it cannot be any more.
        let fresh = self.numbers.one_in(4);
        let number = self.ticket(|t| {
            let used = !t.fed.is_empty() || !t.feeding;
            t.mode.number == 2 && t.fed.len() < 20_000 && (fresh || used)
        });
        let tag = self.tag(number);
        let open = self.known(number).is_some();
        // So that what the check adds to the sum is seen alone.
        let between_sums = open && self.numbers.one_in(5);
        if between_sums {
            self.sum();
        }
        self.check_by(number, &tag);
        if between_sums {
            self.sum();
        }
        // A verdict has closed the ticket, so that all of these are refused with 12; a refusal has closed nothing.
        while open && self.numbers.one_in(2) {
            match self.numbers.below(4) {
                0 => self.feed_to(number, 1),
                1 => self.draw_from(number, 1),
                2 => self.check_by(number, &tag),
                _ => self.close_by(number),
            }
        }
    }

    /// A tag for a ticket, right or wrong.
    fn tag(&mut self, number: usize) -> Vec<u8> {
        let (kind, other) = (self.numbers.below(8), self.numbers.between(8, 16));
        let mut tag = match self.known(number) {
            Some(ticket) if ticket.mode.number == 2 => ticket.tag(kind, other),
            _ => self.numbers.bytes(other),
        };
        if self.numbers.one_in(3) {
            let bit = self.numbers.below(8 * tag.len());
            tag[bit / 8] ^= 1 << (bit % 8);
        }
        if self.is_wrong() {
            tag.resize(self.numbers.pick(&[0, 1, 7, 17, 32, 1_024]), 0);
        }
        tag
    }

    fn check_by(&mut self, number: usize, tag: &[u8]) {
        self.line_of_bytes("check", number, tag);
        if let Some(ticket) = self.known(number) {
            if ticket.mode.number == 2 && tag.len() == ticket.mode.tag_length() {
                ticket.open = false;
            }
        }
    }

    /// As a rule a ticket that no check closes.
    fn close(&mut self) {
        let number = self.ticket(|t| t.mode.number != 2);
        self.close_by(number);
    }

    fn close_by(&mut self, number: usize) {
        self.line("close", number, "-");
        if let Some(ticket) = self.known(number) {
            ticket.open = false;
        }
    }

    fn sum(&mut self) {
        self.line("sum", 0, "-");
    }
}
