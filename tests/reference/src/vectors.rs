//! The outside vectors, and those that Ascon's authors print.
use crate::machine::TAG_LENGTHS;
use crate::{sponge, Mode, HASH, HASHA, MAC, MODES, PRF, XOF, XOFA};

/// The key of the vectors: 00 01 .. 0f.
pub const KEY: [u8; 16] = [0, 1, 2, 3, 4, 5, 6, 7, 8, 9, 10, 11, 12, 13, 14, 15];

/// An outside vector: a mode, the length of a message whose bytes count up from 0, and the output.
#[derive(Clone)]
pub struct Vector {
    pub mode: Mode,
    pub length: usize,
    pub output: Vec<u8>,
}

/// An outside vector of the short function: the lengths of a message whose bytes count up from 0 and of an output, and the output.
pub struct ShortVector {
    pub message: usize,
    pub length: usize,
    pub output: Vec<u8>,
}

/// The outside vectors, which the program `vectors` is held to as well.
const OUTSIDE: &str = include_str!("../../../crates/vectors/stdout");

/// What the authors print in their known-answer files, in the same form.
const PUBLISHED: &str = "\
hash
0 7346bc14f036e87ae03d0997913088f5f68411434b3cf8b54fa796a80d251f91
1 8dd446ada58a7740ecf56eb638ef775f7d5c0fd5f0c2bbbdfdec29609d3c43a2
xof
0 5d4cbde6350ea4c174bd65b5b332f8408f99740b81aa02735eaefbcf0ba0339e
1 b2edbb27ac8397a55bc83d137c151de9ede048338fe907f0d3629e717846fedc
hasha
0 aecd027026d0675f9de7a8ad8ccf512db64b1edcf0b20c388a0c7cc617aaa2c4
1 5a55f0367763d334a3174f9c17fa476eb9196a22f10daf29505633572e7756e4
xofa
0 7c10dffd6bb03be262d72fbe1b0f530013c6c4eadaabde278d6f29d579e3908d
1 965445c46c8e9b948edfef7b5879e06ab5f023770ea892fa4b54525008467ea3
mac
0 eb1af688825d66bf2d53e135f9323315
";

/// The fields of each line of a text, after the name of the function that stands above it.
fn lines(text: &str) -> Vec<(&str, Vec<&str>)> {
    let mut lines = Vec::new();
    let mut name = "";
    for line in text.lines() {
        match line.contains(' ') {
            false => name = line,
            true => lines.push((name, line.split(' ').collect())),
        }
    }
    lines
}

/// The mode of a name; none for the short function, and for the MAC with tags of many lengths.
fn mode(name: &str) -> Option<Mode> {
    match name {
        "hash" => Some(HASH),
        "xof" => Some(XOF),
        "hasha" => Some(HASHA),
        "xofa" => Some(XOFA),
        "prf" => Some(PRF),
        "mac" => Some(MAC),
        "prf_short" | "mac_lengths" => None,
        other => panic!("no function has the name {other}"),
    }
}

/// The vectors of the modes in a text: the message's length, and the output.
fn of_modes(text: &str) -> Vec<Vector> {
    let vector = |(name, fields): (_, Vec<&str>)| {
        Some(Vector {
            mode: mode(name)?,
            length: fields[0].parse().expect("a length"),
            output: unhex(fields[1]),
        })
    };
    lines(text).into_iter().filter_map(vector).collect()
}

/// The outside vectors of the modes.
pub fn vectors() -> Vec<Vector> {
    let vectors = of_modes(OUTSIDE);
    for mode in MODES {
        let of_mode = vectors.iter().filter(|v| v.mode.number == mode.number);
        assert_eq!(of_mode.count(), 139, "mode {}", mode.number);
    }
    vectors
}

/// The outside vectors of the MAC with tags of every length that an open may name: the lengths of message and tag, and the tag.
pub fn mac_lengths() -> Vec<Vector> {
    let lines = lines(OUTSIDE).into_iter();
    let vectors: Vec<Vector> = lines
        .filter(|(name, _)| *name == "mac_lengths")
        .map(|(_, fields)| Vector {
            mode: Mode::mac(fields[1].parse().expect("a length")),
            length: fields[0].parse().expect("a length"),
            output: unhex(fields[2]),
        })
        .collect();
    for length in TAG_LENGTHS {
        let tags = vectors.iter().filter(|v| v.mode.tag_length() == length);
        assert!(tags.clone().all(|v| v.output.len() == length));
        assert_eq!(tags.count(), 15, "tags of {length} bytes");
    }
    assert_eq!(vectors.len(), 9 * 15);
    vectors
}

/// The authors' own vectors.
pub fn published() -> Vec<Vector> {
    of_modes(PUBLISHED)
}

/// The outside vectors of the short function: both lengths, and the output.
pub fn short_vectors() -> Vec<ShortVector> {
    let lines = lines(OUTSIDE).into_iter();
    let vectors: Vec<ShortVector> = lines
        .filter(|(name, _)| *name == "prf_short")
        .map(|(_, fields)| ShortVector {
            message: fields[0].parse().expect("a length"),
            length: fields[1].parse().expect("a length"),
            output: unhex(fields[2]),
        })
        .collect();
    assert_eq!(vectors.len(), 17 * 16);
    vectors
}

/// Holds the modes over a permutation to vectors.
pub fn assert_vectors(permute: impl Fn(&mut [u64; 5], usize), vectors: &[Vector]) {
    for vector in vectors {
        let (message, length) = (counting(vector.length), vector.output.len());
        let (output, _) = sponge(&permute, &vector.mode, &KEY, &message, length);
        let mode = vector.mode.number;
        assert_eq!(
            output, vector.output,
            "mode {mode}, {} bytes, output of {length}",
            vector.length
        );
    }
}

/// The message of a vector: bytes that count up from 0, and after 255 again from 0.
pub fn counting(length: usize) -> Vec<u8> {
    (0..length).map(|i| i as u8).collect()
}

/// The bytes of lower-case hex.
pub(crate) fn unhex(digits: &str) -> Vec<u8> {
    (0..digits.len() / 2)
        .map(|i| u8::from_str_radix(&digits[2 * i..2 * i + 2], 16).expect("two digits"))
        .collect()
}

#[cfg(test)]
mod tests {
    use super::*;
    use crate::{mac, permute, prf_short};

    #[test]
    fn the_vectors() {
        assert_vectors(permute, &vectors());
    }

    #[test]
    fn the_published_vectors() {
        assert_vectors(permute, &published());
    }

    #[test]
    fn the_vectors_of_tag_lengths() {
        assert_vectors(permute, &mac_lengths());
    }

    /// The tag length is in the start word: a tag is not a longer one that was cut.
    #[test]
    fn no_tag_is_a_longer_one_cut() {
        assert_eq!(Mode::mac(8).start, 0x80808c0000000040);
        for message in [0, 1, 31, 32, 33, 100].map(counting) {
            let tags = TAG_LENGTHS.map(|length| mac(&KEY, &message, length));
            let tags: Vec<Vec<u8>> = tags.collect();
            for (i, short) in tags.iter().enumerate() {
                let longer = &tags[i + 1..];
                assert!(longer.iter().all(|tag| !tag.starts_with(short)));
            }
        }
    }

    /// The lines with tags of 16 bytes are those of the MAC.
    #[test]
    fn tags_of_sixteen_bytes_are_the_macs() {
        let macs = vectors();
        for vector in mac_lengths().iter().filter(|v| v.mode == MAC) {
            let mut same = macs.iter().filter(|v| v.mode == MAC);
            let line = same.find(|v| v.length == vector.length);
            assert_eq!(line.expect("a line").output, vector.output);
        }
    }

    #[test]
    fn the_vectors_of_the_short_function() {
        for vector in short_vectors() {
            assert_eq!(
                prf_short(permute, &KEY, &counting(vector.message), vector.length),
                vector.output,
                "message of {}, output of {}",
                vector.message,
                vector.length
            );
        }
    }

    /// The authors' values begin the lines of their functions in the file.
    #[test]
    fn the_vectors_begin_as_published() {
        for vector in published() {
            let of = |v: &Vector| (v.mode.number, v.length);
            let line = vectors().into_iter().find(|v| of(v) == of(&vector));
            let output = line.expect("a line of the file").output;
            assert!(output.starts_with(&vector.output));
        }
    }
}
