//! Document 01's plain machine, with the changes K1, K2 and K4, written from its paragraph and its lists of checks alone: it holds what was said, and works every
//! output out from the beginning.
use crate::{permute, sponge, Mode, MODES};
use std::ops::RangeInclusive;

#[derive(Clone, Debug, PartialEq)]
pub enum Call {
    Open {
        mode: u32,
        key: Vec<u8>,
        tag_length: u32,
    },
    Feed {
        ticket: u32,
        bytes: Vec<u8>,
    },
    Draw {
        ticket: u32,
        buffer: Vec<u8>,
        place: u64,
        count: u64,
    },
    Check {
        ticket: u32,
        tag: Vec<u8>,
    },
    Close {
        ticket: u32,
    },
    Sum,
}

impl Call {
    /// The ticket that the call is on, if it is on one.
    pub fn ticket(&self) -> Option<u32> {
        match self {
            Call::Feed { ticket, .. }
            | Call::Draw { ticket, .. }
            | Call::Check { ticket, .. }
            | Call::Close { ticket } => Some(*ticket),
            Call::Open { .. } | Call::Sum => None,
        }
    }
}

/// Every field of an answer, and the buffer as the call leaves it.
#[derive(Clone, Debug, Default, PartialEq)]
pub struct Answer {
    pub refusal: u32,
    pub ticket: u32,
    pub runs: u64,
    pub passed: bool,
    pub sum: u64,
    pub buffer: Option<Vec<u8>>,
}

struct Entry {
    open: bool,
    mode: Mode,
    key: [u8; 16],
    fed: Vec<u8>,
    feeding: bool,
    drawn: usize,
    output: Vec<u8>,
}

/// The entry of ticket t is number t - 1.
#[derive(Default)]
pub struct Machine {
    entries: Vec<Entry>,
}

/// How much may be fed to a ticket.
pub const MOST_FED: usize = 16_777_216;

/// The tag lengths that an open in mode 2 may name.
pub const TAG_LENGTHS: RangeInclusive<usize> = 8..=16;

impl Entry {
    fn new(mode: Mode, key: &[u8]) -> Entry {
        let mut padded = [0; 16];
        padded[..key.len()].copy_from_slice(key);
        Entry {
            open: true,
            mode,
            key: padded,
            fed: Vec::new(),
            feeding: true,
            drawn: 0,
            output: Vec::new(),
        }
    }

    /// So many first bytes of the output, once feeding has ended. They are kept, as they stay the same; where more are asked for, all are worked out anew, and up to twice as many, or as many as
    /// cost little beside a long message: so a long output can be drawn in many small parts.
    fn output(&mut self, length: usize) -> &[u8] {
        if self.output.len() < length {
            let more = length.max(self.fed.len() / 16).next_power_of_two();
            self.output = sponge(permute, &self.mode, &self.key, &self.fed, more).0;
        }
        &self.output[..length]
    }

    fn runs(&self) -> u64 {
        let drawn = (!self.feeding).then_some(self.drawn);
        self.mode.runs(self.fed.len(), drawn)
    }

    /// What an accepted call answers of itself: the run count.
    fn accepted(&self) -> Answer {
        Answer {
            runs: self.runs(),
            ..Answer::default()
        }
    }

    fn feed(&mut self, bytes: &[u8]) -> Result<Answer, u32> {
        if !self.feeding {
            return Err(15);
        }
        if self.fed.len() + bytes.len() > MOST_FED {
            return Err(16);
        }
        self.fed.extend_from_slice(bytes);
        Ok(self.accepted())
    }

    fn draw(&mut self, buffer: &[u8], place: u64, count: u64) -> Result<Answer, u32> {
        if u128::from(place) + u128::from(count) > buffer.len() as u128 {
            return Err(3);
        }
        if self.drawn as u128 + u128::from(count) > self.mode.most_drawn as u128 {
            return Err(17);
        }
        let (place, count, before) = (place as usize, count as usize, self.drawn);
        self.feeding = false;
        self.drawn += count;
        let mut after = buffer.to_vec();
        if count > 0 {
            after[place..place + count].copy_from_slice(&self.output(self.drawn)[before..]);
        }
        Ok(Answer {
            buffer: Some(after),
            ..self.accepted()
        })
    }

    /// The verdict. Pass or fail, the entry is closed after it, and the count is the close's.
    fn check(&mut self, tag: &[u8]) -> Result<Answer, u32> {
        if self.mode.number != 2 {
            return Err(18);
        }
        if tag.len() != self.mode.tag_length() {
            return Err(4);
        }
        self.feeding = false;
        Ok(Answer {
            passed: self.output(tag.len()) == tag,
            ..self.close()
        })
    }

    fn close(&mut self) -> Answer {
        self.open = false;
        self.accepted()
    }
}

impl Machine {
    /// What a call is answered. A refusal has its number, and 0 in every other field.
    pub fn call(&mut self, call: &Call) -> Answer {
        let lent = match call {
            Call::Draw { buffer, .. } => Some(buffer.clone()),
            _ => None,
        };
        self.accept(call).unwrap_or_else(|refusal| Answer {
            refusal,
            buffer: lent,
            ..Answer::default()
        })
    }

    /// The answer to a call that no check refuses, or the number of the first that does.
    fn accept(&mut self, call: &Call) -> Result<Answer, u32> {
        match call {
            Call::Open {
                mode,
                key,
                tag_length,
            } => self.open(*mode, key, *tag_length),
            Call::Feed { ticket, bytes } => self.entry(*ticket)?.feed(bytes),
            Call::Draw {
                ticket,
                buffer,
                place,
                count,
            } => self.entry(*ticket)?.draw(buffer, *place, *count),
            Call::Check { ticket, tag } => self.entry(*ticket)?.check(tag),
            Call::Close { ticket } => Ok(self.entry(*ticket)?.close()),
            Call::Sum => Ok(self.sum()),
        }
    }

    /// The entry of an open ticket, or 11 or 12.
    fn entry(&mut self, ticket: u32) -> Result<&mut Entry, u32> {
        let place = (ticket as usize).checked_sub(1).ok_or(11u32)?;
        let entry = self.entries.get_mut(place).ok_or(11u32)?;
        if entry.open {
            Ok(entry)
        } else {
            Err(12)
        }
    }

    fn open(&mut self, mode: u32, key: &[u8], tag_length: u32) -> Result<Answer, u32> {
        let mut mode = **MODES.iter().find(|m| m.number == mode).ok_or(1u32)?;
        if key.len() != if mode.keyed { 16 } else { 0 } {
            return Err(2);
        }
        if mode.number == 2 {
            let tag_length = tag_length as usize;
            if !TAG_LENGTHS.contains(&tag_length) {
                return Err(21);
            }
            mode = Mode::mac(tag_length);
        }
        if self.entries.len() == 4_294_967_295 {
            return Err(14);
        }
        if self.entries.iter().filter(|e| e.open).count() == 16 {
            return Err(13);
        }
        let entry = Entry::new(mode, key);
        let answer = entry.accepted();
        self.entries.push(entry);
        Ok(Answer {
            ticket: self.entries.len() as u32,
            ..answer
        })
    }

    fn sum(&self) -> Answer {
        Answer {
            sum: self.entries.iter().map(Entry::runs).sum(),
            ..Answer::default()
        }
    }
}

#[cfg(test)]
mod tests {
    use super::*;
    use crate::{counting, mac, KEY};

    fn open(mode: u32, tag_length: u32) -> Call {
        let key = if mode < 3 { KEY.to_vec() } else { Vec::new() };
        Call::Open {
            mode,
            key,
            tag_length,
        }
    }

    fn feed(ticket: u32, bytes: &[u8]) -> Call {
        let bytes = bytes.to_vec();
        Call::Feed { ticket, bytes }
    }

    fn draw(ticket: u32, count: usize) -> Call {
        Call::Draw {
            ticket,
            buffer: vec![0; count],
            place: 0,
            count: count as u64,
        }
    }

    fn check(ticket: u32, tag: &[u8]) -> Call {
        let tag = tag.to_vec();
        Call::Check { ticket, tag }
    }

    fn close(ticket: u32) -> Call {
        Call::Close { ticket }
    }

    /// The tag of a message, right or with its last bit changed.
    fn tag(message: &[u8], length: usize, right: bool) -> Vec<u8> {
        let mut tag = mac(&KEY, message, length);
        tag[length - 1] ^= u8::from(!right);
        tag
    }

    /// What every call on ticket 1 is refused with.
    fn refusals(machine: &mut Machine, tag: &[u8]) -> [u32; 4] {
        [feed(1, &[]), draw(1, 0), check(1, tag), close(1)].map(|call| machine.call(&call).refusal)
    }

    /// A machine with two tickets, a MAC and a hash. The first is fed a message, and so many bytes are drawn from it; with none, feeding goes on.
    fn fed(tag_length: usize, message: &[u8], drawn: usize) -> Machine {
        let mut machine = Machine::default();
        machine.call(&open(2, tag_length as u32));
        machine.call(&open(3, 0));
        machine.call(&feed(1, message));
        if drawn > 0 {
            machine.call(&draw(1, drawn));
        }
        machine
    }

    /// Count and sum are those of another machine, on which a draw of nothing ends feeding, and a close follows.
    #[test]
    fn a_check_closes() {
        for (n, drawn) in [(0, 0), (31, 0), (32, 0), (33, 1), (64, 7), (100, 8)] {
            for (length, right) in [(8, true), (8, false), (16, true), (16, false)] {
                let message = counting(n);
                let tag = tag(&message, length, right);
                let (mut machine, mut other) =
                    (fed(length, &message, drawn), fed(length, &message, drawn));
                let checked = machine.call(&check(1, &tag));
                other.call(&draw(1, 0));
                let closed = other.call(&close(1));
                let verdict = Answer {
                    passed: right,
                    runs: n as u64 / 32 + 2,
                    ..Answer::default()
                };
                assert_eq!((checked.runs, &checked), (closed.runs, &verdict));
                assert_eq!(refusals(&mut machine, &tag), [12; 4]);
                let sums = [machine, other].map(|mut machine| machine.call(&Call::Sum).sum);
                assert_eq!(sums, [verdict.runs + 1; 2]);
            }
        }
    }

    /// A check that is refused, with 4 or 18, leaves its ticket open, and feeding goes on.
    #[test]
    fn a_refused_check_closes_nothing() {
        for (mode, length, refusal) in [(2, 7, 4), (2, 9, 4), (2, 16, 4), (1, 8, 18), (3, 8, 18)] {
            let mut machine = Machine::default();
            machine.call(&open(mode, 8));
            let tag = tag(&[], length, true);
            assert_eq!(machine.call(&check(1, &tag)).refusal, refusal);
            assert_eq!(machine.call(&Call::Sum).sum, 1);
            assert_eq!(refusals(&mut machine, &tag), [0, 0, refusal, 0]);
        }
    }

    /// With sixteen open, a check makes room for one more, whatever its verdict, and a refused one makes none.
    #[test]
    fn a_check_makes_room() {
        let mut machine = Machine::default();
        for ticket in 1..=16 {
            assert_eq!(machine.call(&open(2, 8)).ticket, ticket);
        }
        for (ticket, right) in [(9, true), (1, false), (16, true), (17, false), (18, true)] {
            assert_eq!(machine.call(&check(ticket, &[0; 7])).refusal, 4);
            assert_eq!(machine.call(&open(2, 8)).refusal, 13);
            let verdict = machine.call(&check(ticket, &tag(&[], 8, right)));
            assert_eq!((verdict.refusal, verdict.passed), (0, right));
            assert_eq!(machine.call(&open(2, 8)).refusal, 0);
        }
        assert_eq!(machine.call(&open(2, 8)).refusal, 13);
        // Five tickets made two runs, and sixteen one.
        assert_eq!(machine.call(&Call::Sum).sum, 26);
    }
}
