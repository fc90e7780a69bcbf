//! The six modes over one sponge, and the short function.
use crate::permute;

/// A mode of document 01 or of change request K1, by its number: the start word, both rates and the most drawn in bytes, whether it takes a key and flips a bit before
/// the last block's run, and the rounds of every run but two: the first and the last block's have twelve.
#[derive(Clone, Copy, Debug, PartialEq)]
pub struct Mode {
    pub number: u32,
    pub start: u64,
    pub feed_rate: usize,
    pub draw_rate: usize,
    pub most_drawn: usize,
    pub keyed: bool,
    pub inner_rounds: usize,
}

/// ASCON-PRF: "Ascon PRF, MAC, and Short-Input MAC" (source document 003), table 2, and its start value for output of any length.
pub const PRF: Mode = Mode {
    number: 1,
    start: 0x80808c0000000000,
    feed_rate: 32,
    draw_rate: 16,
    most_drawn: 1_048_576,
    keyed: true,
    inner_rounds: 12,
};

/// ASCON-MAC with tags of 128 bits, as frames have them.
pub const MAC: Mode = Mode::mac(16);

/// ASCON-HASH: "Additional Modes for Ascon" (source document 004), its table of start values.
pub const HASH: Mode = Mode {
    number: 3,
    start: 0x00400c0000000100,
    feed_rate: 8,
    draw_rate: 8,
    most_drawn: 32,
    keyed: false,
    inner_rounds: 12,
};

/// ASCON-XOF, the same with output of any length.
pub const XOF: Mode = Mode {
    number: 4,
    start: 0x00400c0000000000,
    most_drawn: 1_048_576,
    ..HASH
};

/// ASCON-HASHA: algorithm 1 of 004 with a = 12, b = 8, and neither name nor customisation.
pub const HASHA: Mode = Mode {
    number: 5,
    start: 0x00400c0400000100,
    inner_rounds: 8,
    ..HASH
};

/// ASCON-XOFA, the same with output of any length. Of its start value 004's table drops a digit, and algorithm 1 gives all.
pub const XOFA: Mode = Mode {
    number: 6,
    start: 0x00400c0400000000,
    most_drawn: 1_048_576,
    ..HASHA
};

pub const MODES: [&Mode; 6] = [&PRF, &MAC, &HASH, &XOF, &HASHA, &XOFA];

impl Mode {
    /// ASCON-MAC with tags of so many bytes: as the PRF, with the tag's length in bits in the start value, and no more output. Change request K2 has those of 8
    /// to 16.
    pub const fn mac(tag_length: usize) -> Mode {
        Mode {
            number: 2,
            start: PRF.start + 8 * tag_length as u64,
            most_drawn: tag_length,
            ..PRF
        }
    }

    /// The tag length that an open names. Other modes have none: there it is 0, which mode 2 would refuse.
    pub fn tag_length(&self) -> usize {
        if self.number == 2 {
            self.most_drawn
        } else {
            0
        }
    }

    /// What an open names: the key, or nothing where the mode takes none.
    pub fn given<'a>(&self, key: &'a [u8]) -> &'a [u8] {
        if self.keyed {
            key
        } else {
            &[]
        }
    }

    /// The bytes of an open in a script: what it names, and of a MAC the tag length after it.
    pub fn opened_by(&self, key: &[u8]) -> Vec<u8> {
        let mut bytes = self.given(key).to_vec();
        if self.number == 2 {
            bytes.push(self.tag_length() as u8);
        }
        bytes
    }

    /// Document 01's formula for the run count: with so many bytes fed and, once feeding has ended, so many drawn.
    pub fn runs(&self, fed: usize, drawn: Option<usize>) -> u64 {
        let after = drawn.map_or(0, |d| d.div_ceil(self.draw_rate).max(1));
        (fed / self.feed_rate + 1 + after) as u64
    }
}

/// The output of a mode for a message, and how many times the state was permuted, over any permutation of five words that is told its rounds: so vectors try the one
/// handed in.
pub fn sponge(
    permute: impl Fn(&mut [u64; 5], usize),
    mode: &Mode,
    key: &[u8; 16],
    message: &[u8],
    length: usize,
) -> (Vec<u8>, u64) {
    let mut sponge = Sponge::begin(permute, mode, key);
    sponge.absorb(mode, message);
    let output = sponge.squeeze(mode, length);
    (output, sponge.runs)
}

/// The state as forty bytes, and how many times it was permuted.
struct Sponge<P> {
    permute: P,
    state: [u8; 40],
    runs: u64,
}

impl<P: Fn(&mut [u64; 5], usize)> Sponge<P> {
    fn begin(permute: P, mode: &Mode, key: &[u8; 16]) -> Sponge<P> {
        let key = mode.given(key);
        let mut state = [0; 40];
        state[..8].copy_from_slice(&mode.start.to_be_bytes());
        state[8..8 + key.len()].copy_from_slice(key);
        let mut sponge = Sponge {
            permute,
            state,
            runs: 0,
        };
        sponge.run(12);
        sponge
    }

    fn run(&mut self, rounds: usize) {
        permute_bytes(&self.permute, &mut self.state, rounds);
        self.runs += 1;
    }

    /// All of the message, padded.
    fn absorb(&mut self, mode: &Mode, message: &[u8]) {
        let mut padded = message.to_vec();
        padded.push(0x80);
        padded.resize(padded.len().next_multiple_of(mode.feed_rate), 0);
        let last = padded.split_off(padded.len() - mode.feed_rate);
        for block in padded.chunks(mode.feed_rate) {
            self.add(block);
            self.run(mode.inner_rounds);
        }
        self.add(&last);
        self.state[39] ^= u8::from(mode.keyed);
        self.run(12);
    }

    /// A block, added to the first bytes of the state.
    fn add(&mut self, block: &[u8]) {
        for (byte, fed) in self.state.iter_mut().zip(block) {
            *byte ^= fed;
        }
    }

    fn squeeze(&mut self, mode: &Mode, length: usize) -> Vec<u8> {
        let mut output = self.state[..mode.draw_rate].to_vec();
        while output.len() < length {
            self.run(mode.inner_rounds);
            output.extend_from_slice(&self.state[..mode.draw_rate]);
        }
        output.truncate(length);
        output
    }
}

/// The state as forty bytes, permuted.
fn permute_bytes(permute: impl Fn(&mut [u64; 5], usize), state: &mut [u8; 40], rounds: usize) {
    let mut words: [u64; 5] =
        std::array::from_fn(|i| u64::from_be_bytes(state[8 * i..][..8].try_into().unwrap()));
    permute(&mut words, rounds);
    for (bytes, word) in state.chunks_mut(8).zip(words) {
        bytes.copy_from_slice(&word.to_be_bytes());
    }
}

/// The short function, algorithm 3 of 003: an output of 1 to 16 bytes for a message of at most 16, over any permutation of five words that is told its rounds.
pub fn prf_short(
    permute: impl Fn(&mut [u64; 5], usize),
    key: &[u8; 16],
    message: &[u8],
    length: usize,
) -> Vec<u8> {
    let mut state = [0; 40];
    state[0] = 128;
    state[1] = 8 * message.len() as u8;
    state[2] = 0x40 ^ 12;
    state[3] = 8 * length as u8;
    state[8..24].copy_from_slice(key);
    state[24..24 + message.len()].copy_from_slice(message);
    permute_bytes(permute, &mut state, 12);
    let ends = state[40 - length..].iter().zip(&key[16 - length..]);
    ends.map(|(s, k)| s ^ k).collect()
}

/// The MAC of a message, with tags of so many bytes. With those of 16 it is the tag of a frame whose body is the message.
pub fn mac(key: &[u8; 16], message: &[u8], tag_length: usize) -> Vec<u8> {
    sponge(permute, &Mode::mac(tag_length), key, message, tag_length).0
}
