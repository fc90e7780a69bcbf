//! The linked sponge against the outside vectors and the reference: outputs, run counts, tags of every length, and numbers that are no mode.
use linked::tag;
use reference::machine::TAG_LENGTHS;
use reference::numbers::Numbers;
use reference::{counting, mac, mac_lengths, permute, published, vectors};
use reference::{Mode, HASH, KEY, MAC, MODES, PRF};

/// The linked sponge in a mode of the reference.
fn sponge(
    mode: &Mode,
    key: &[u8],
    message: &[u8],
    cut: usize,
    out: &mut [u8],
    first: usize,
) -> u64 {
    let tag_length = mode.tag_length().try_into().unwrap();
    linked::sponge(mode.number, tag_length, key, message, cut, out, first)
}

/// What the reference gives.
fn expected(mode: &Mode, key: &[u8; 16], message: &[u8], length: usize) -> (Vec<u8>, u64) {
    reference::sponge(permute, mode, key, message, length)
}

/// Holds calls with a message's parts and an output's parts cut in many ways against the reference, and the count against the formula.
fn assert_agrees(
    mode: &Mode,
    key: &[u8; 16],
    message: &[u8],
    length: usize,
    cuts: impl IntoIterator<Item = (usize, usize)>,
) {
    let (output, runs) = expected(mode, key, message, length);
    assert_eq!(runs, mode.runs(message.len(), Some(length)));
    for (cut, first) in cuts {
        let given = format!(
            "mode {}, tags of {}, {} bytes cut at {cut}, {length} drawn, {first} of them first",
            mode.number,
            mode.tag_length(),
            message.len()
        );
        let mut out = vec![0xa5; length];
        let answer = sponge(mode, key, message, cut, &mut out, first);
        assert_eq!(out, output, "{given}");
        assert_eq!(answer, runs, "{given}");
    }
}

#[test]
fn the_vectors() {
    let all = [published(), vectors(), mac_lengths()].concat();
    for (i, vector) in all.iter().enumerate() {
        let mut out = vec![0; vector.output.len()];
        let message = counting(vector.length);
        sponge(&vector.mode, &KEY, &message, i % 47, &mut out, i % 19);
        assert_eq!(
            out,
            vector.output,
            "mode {}, {} bytes, output of {}",
            vector.mode.number,
            vector.length,
            vector.output.len()
        );
    }
}

#[test]
fn every_length_and_every_cut() {
    let mut numbers = Numbers(1);
    let key: [u8; 16] = numbers.bytes(16).try_into().unwrap();
    for mode in MODES {
        for length in 0..=100 {
            let message = numbers.bytes(length);
            assert_agrees(mode, &key, &message, 33, (0..=length).map(|cut| (cut, 16)));
        }
    }
}

#[test]
fn every_count_drawn_and_every_cut() {
    let mut numbers = Numbers(2);
    let key: [u8; 16] = numbers.bytes(16).try_into().unwrap();
    let message = numbers.bytes(71);
    for mode in MODES {
        for length in 0..=100 {
            assert_agrees(
                mode,
                &key,
                &message,
                length,
                (0..=length).map(|first| (39, first)),
            );
        }
    }
}

#[test]
fn cuts_past_the_end_are_cuts_at_the_end() {
    for mode in MODES {
        for past in [41, 1 << 32, usize::MAX] {
            assert_agrees(mode, &KEY, &counting(40), 40, [(past, past)]);
        }
    }
}

#[test]
fn long_messages_and_long_outputs() {
    let mut numbers = Numbers(3);
    for mode in MODES {
        for _ in 0..4 {
            let length = 20_000 + (numbers.number() % 20_000) as usize;
            let message = numbers.bytes(length);
            let cut = numbers.number() as usize % length;
            assert_agrees(mode, &KEY, &message, 5_000, [(cut, cut % 5_000)]);
        }
    }
}

/// As much as the hub would take, and more than it would give: each mode gives output of any length here.
#[test]
fn messages_and_outputs_of_megabytes() {
    let message = Numbers(4).bytes(16_777_216);
    for mode in MODES {
        assert_agrees(mode, &KEY, &message, 1_048_577, [(9_999_999, 777_777)]);
    }
    for length in [8, 16] {
        let mut mac = mac(&KEY, &message, length.into());
        assert_eq!(tag(&KEY, &message, &mac, length), 1);
        mac[usize::from(length) - 1] ^= 1;
        assert_eq!(tag(&KEY, &message, &mac, length), 0);
    }
}

/// The sponge takes any tag length, and puts it into the start word; output is drawn past it.
#[test]
fn tag_lengths_from_0_to_255() {
    let mut numbers = Numbers(5);
    for length in 0..=255 {
        let message = numbers.bytes(45);
        let cuts = [(0, 0), (7, 8), (32, 16), (45, 40)];
        assert_agrees(&Mode::mac(length), &KEY, &message, 40, cuts);
    }
}

#[test]
fn other_modes_take_no_notice_of_a_tag_length() {
    for mode in MODES.into_iter().filter(|mode| mode.number != 2) {
        let (output, runs) = expected(mode, &KEY, b"ramp", 40);
        for length in 0..=255 {
            let mut out = vec![0xa5; 40];
            let answer = linked::sponge(mode.number, length, &KEY, b"ramp", 2, &mut out, 11);
            assert_eq!(
                (&out, answer),
                (&output, runs),
                "mode {}, {length}",
                mode.number
            );
        }
    }
}

#[test]
fn only_the_lent_bytes_are_written() {
    for mode in MODES {
        let (output, _) = expected(mode, &KEY, b"ramp", 30);
        let mut buffer = [0xa5; 50];
        sponge(mode, &KEY, b"ramp", 2, &mut buffer[10..40], 11);
        assert_eq!(buffer[..10], [0xa5; 10]);
        assert_eq!(buffer[10..40], output[..]);
        assert_eq!(buffer[40..], [0xa5; 10]);
    }
}

#[test]
fn numbers_that_are_no_mode() {
    // 257 and the like are a mode's number in their lowest bits.
    for number in [
        0,
        7,
        8,
        255,
        257,
        258,
        259,
        260,
        261,
        262,
        65_537,
        1 << 31,
        (1 << 31) + 3,
        u32::MAX,
    ] {
        for length in [0, 8, 16, 255] {
            let mut out = [0xa5; 40];
            let answer = linked::sponge(number, length, &KEY, b"ramp", 1, &mut out, 9);
            assert_eq!((out, answer), ([0xa5; 40], 0), "mode {number}");
        }
    }
}

#[test]
fn keys_of_other_lengths_are_cut_or_filled_with_zeros() {
    let long: Vec<u8> = (0..60).map(|i| i ^ 0x5a).collect();
    for mode in MODES {
        for length in 0..60 {
            let mut used = [0; 16];
            let count = length.min(16);
            used[..count].copy_from_slice(&long[..count]);
            let (output, _) = expected(mode, &used, b"deck", 32);
            let mut out = [0; 32];
            sponge(mode, &long[..length], b"deck", 0, &mut out, 0);
            assert_eq!(
                out[..],
                output[..],
                "mode {}, key of {length} bytes",
                mode.number
            );
        }
    }
}

#[test]
fn modes_differ() {
    let message = counting(64);
    let (prf, _) = expected(&PRF, &KEY, &message, 16);
    let (mac, _) = expected(&MAC, &KEY, &message, 16);
    assert_ne!(prf, mac, "the MAC is not the first bytes of the PRF");
    assert_eq!(tag(&KEY, &message, &prf, 16), 0);
    assert_eq!(tag(&KEY, &message, &mac, 16), 1);
    // A block more for a message that fills one: 64 bytes are eight blocks of the hash, and nine with the padding.
    assert_eq!(sponge(&HASH, &[], &message, 64, &mut [0; 8], 8), 1 + 9);
}

#[test]
fn the_vectors_of_tag_lengths_are_judged() {
    for vector in mac_lengths() {
        let (message, output) = (counting(vector.length), vector.output);
        for length in 0..=255 {
            let right = usize::from(length) == output.len();
            assert_eq!(
                tag(&KEY, &message, &output, length),
                u32::from(right),
                "{} bytes, a tag of {}, judged as one of {length}",
                vector.length,
                output.len()
            );
        }
    }
}

/// With tags of a length only the whole tag passes: not its first bytes, and not what the sponge would give next. Of a tag longer than a block the block is the
/// whole.
#[test]
fn tags_of_every_length() {
    for length in [0, 1, 31, 32, 33, 100] {
        let message = counting(length);
        for tag_length in 0..=255 {
            let mode = Mode::mac(tag_length.into());
            let (output, _) = expected(&mode, &KEY, &message, 300);
            let whole = mode.tag_length().min(16);
            for count in (0..=40).chain([255, 256, 264, 272]) {
                let given = format!("{length} bytes, {count} of a tag of {tag_length}");
                let passes = u32::from(count == whole);
                assert_eq!(
                    tag(&KEY, &message, &output[..count], tag_length),
                    passes,
                    "{given}"
                );
                if count > 0 {
                    assert_eq!(
                        tag(&KEY, &message, &vec![0; count], tag_length),
                        0,
                        "{given}"
                    );
                }
            }
        }
    }
}

/// The first bytes of a longer tag are no tag of their own length, and none of the longer one's.
#[test]
fn cut_tags() {
    for message in [0, 1, 31, 32, 33, 100].map(counting) {
        for long in TAG_LENGTHS {
            let mac = mac(&KEY, &message, long);
            for short in 8..long {
                let given = format!("{} bytes, {short} of {long}", message.len());
                let as_short = tag(&KEY, &message, &mac[..short], short as u8);
                let as_long = tag(&KEY, &message, &mac[..short], long as u8);
                assert_eq!((as_short, as_long), (0, 0), "{given}");
            }
        }
    }
}

#[test]
fn damaged_tags_and_keys() {
    let message = counting(45);
    for length in 8..=16 {
        let mac = mac(&KEY, &message, length.into());
        assert_eq!(tag(&KEY, &message, &mac, length), 1);
        for bit in 0..8 * mac.len() {
            let mut damaged = mac.clone();
            damaged[bit / 8] ^= 1 << (bit % 8);
            assert_eq!(
                tag(&KEY, &message, &damaged, length),
                0,
                "bit {bit} of a tag of {length}"
            );
        }
        for bit in 0..128 {
            let mut key = KEY;
            key[bit / 8] ^= 1 << (bit % 8);
            assert_eq!(
                tag(&key, &message, &mac, length),
                0,
                "bit {bit} of the key, a tag of {length}"
            );
        }
    }
}

#[test]
fn damaged_messages() {
    let message = counting(45);
    for length in [8, 16] {
        let mac = mac(&KEY, &message, length.into());
        for bit in 0..45 * 8 {
            let mut damaged = message.clone();
            damaged[bit / 8] ^= 1 << (bit % 8);
            assert_eq!(
                tag(&KEY, &damaged, &mac, length),
                0,
                "bit {bit} of the message, a tag of {length}"
            );
        }
        assert_eq!(tag(&KEY, &message[..44], &mac, length), 0);
    }
}
