//! The outside vectors, through the program: the messages fed in scraps of 0, 1, 2, .. bytes, and the outputs drawn, in two parts. Tags are checked, too,
//! whole, damaged and in other lengths.
use reference::machine::TAG_LENGTHS;
use reference::script::field;
use reference::{counting, mac_lengths, published, vectors, Mode, Vector, KEY};
use script::Talk;

/// A script in which vectors are tried, each on tickets of its own.
#[derive(Default)]
struct Vectors {
    talk: Talk,
    tickets: usize,
}

impl Vectors {
    /// Opens a ticket of a vector's mode and feeds it the message.
    fn feed(&mut self, Vector { mode, length, .. }: &Vector) -> usize {
        self.tickets += 1;
        let ticket = self.tickets;
        let open = format!("open {} {}", mode.number, field(&mode.opened_by(&KEY)));
        self.talk.line(open, format!("ok {ticket} -"));
        let message = counting(*length);
        let (mut fed, mut scrap) = (0, 0);
        while fed < *length {
            let next = (fed + scrap).min(*length);
            let line = format!("feed {ticket} {}", field(&message[fed..next]));
            self.talk
                .line(line, format!("ok {} -", mode.runs(next, None)));
            (fed, scrap) = (next, scrap + 1);
        }
        ticket
    }

    /// Has a ticket give the vector's output, and closes it: a MAC by a check of that output.
    fn draw(&mut self, vector: &Vector) {
        let ticket = self.feed(vector);
        let (mode, output) = (&vector.mode, &vector.output);
        let runs = |drawn| mode.runs(vector.length, Some(drawn));
        let first = ticket % output.len();
        for (from, to) in [(0, first), (first, output.len())] {
            let answer = format!("ok {} {}", runs(to), field(&output[from..to]));
            self.talk
                .line(format!("draw {ticket} {:04x}", to - from), answer);
        }
        let runs = runs(output.len());
        if mode.number == 2 {
            self.refused(ticket, output);
            self.check(ticket, output, format!("pass {runs} -"));
        } else {
            self.talk
                .line(format!("close {ticket} -"), format!("ok {runs} -"));
        }
    }

    /// Checks the tag on a ticket from which nothing is drawn, and with one bit changed on another.
    fn judge(&mut self, vector: &Vector) {
        let runs = vector.mode.runs(vector.length, Some(0));
        let right = self.feed(vector);
        self.refused(right, &vector.output);
        self.check(right, &vector.output, format!("pass {runs} -"));
        let wrong = self.feed(vector);
        let mut damaged = vector.output.clone();
        let bit = wrong % (8 * damaged.len());
        damaged[bit / 8] ^= 1 << (bit % 8);
        self.check(wrong, &damaged, format!("fail {runs} -"));
    }

    /// The tag, cut or lengthened, is refused.
    fn refused(&mut self, ticket: usize, tag: &[u8]) {
        for length in TAG_LENGTHS.filter(|length| *length != tag.len()) {
            let mut other = tag.to_vec();
            other.resize(length, 0);
            self.check(ticket, &other, "no 4 -".to_string());
        }
    }

    fn check(&mut self, ticket: usize, tag: &[u8], answer: String) {
        self.talk
            .line(format!("check {ticket} {}", field(tag)), answer);
    }
}

fn assert_vectors(vectors: &[Vector]) {
    let mut script = Vectors::default();
    for vector in vectors {
        script.draw(vector);
        if vector.mode.number == 2 {
            script.judge(vector);
        }
    }
    script.talk.assert();
}

#[test]
fn the_vectors() {
    assert_vectors(&vectors());
}

#[test]
fn the_vectors_of_tag_lengths() {
    assert_vectors(&mac_lengths());
}

/// The first bytes of a longer tag do not pass on a ticket whose tags have that length.
#[test]
fn cut_tags() {
    let mut talk = Talk::default();
    let mut ticket = 0;
    for vector in mac_lengths() {
        let runs = vector.mode.runs(vector.length, Some(0));
        let message = field(&counting(vector.length));
        for short in 8..vector.output.len() {
            ticket += 1;
            let open = field(&Mode::mac(short).opened_by(&KEY));
            let cut = field(&vector.output[..short]);
            let fed = vector.mode.runs(vector.length, None);
            talk.line(format!("open 2 {open}"), format!("ok {ticket} -"))
                .line(format!("feed {ticket} {message}"), format!("ok {fed} -"))
                .line(format!("check {ticket} {cut}"), format!("fail {runs} -"));
        }
    }
    talk.assert();
}

#[test]
fn the_published_vectors() {
    assert_vectors(&published());
}
