//! The linked short function against the outside vectors and the reference: outputs, refusals in their order, and the buffer that a refusal leaves.
use linked::prf_short;
use reference::numbers::Numbers;
use reference::{counting, permute, short_vectors, KEY};

/// What a buffer holds before a call.
const BEFORE: u8 = 0xa5;

fn expected(key: &[u8; 16], message: &[u8], length: usize) -> Vec<u8> {
    reference::prf_short(permute, key, message, length)
}

/// Holds a refusal, and that each byte of the buffer is as it was.
fn assert_refused(number: u32, key: usize, message: usize, out: usize, length: usize) {
    let given = format!("key of {key}, message of {message}, buffer of {out}, length {length}");
    let mut buffer = vec![BEFORE; out];
    let answer = prf_short(&counting(key), &counting(message), &mut buffer, length);
    assert_eq!(answer, number, "{given}");
    assert_eq!(buffer, vec![BEFORE; out], "{given}");
}

#[test]
fn the_vectors() {
    for vector in short_vectors() {
        let mut out = vec![BEFORE; vector.length];
        let message = counting(vector.message);
        assert_eq!(prf_short(&KEY, &message, &mut out, vector.length), 0);
        assert_eq!(
            out, vector.output,
            "message of {}, output of {}",
            vector.message, vector.length
        );
    }
}

#[test]
fn every_length_under_many_keys() {
    let mut numbers = Numbers(11);
    for _ in 0..50 {
        let key: [u8; 16] = numbers.bytes(16).try_into().unwrap();
        for m in 0..=16 {
            let message = numbers.bytes(m);
            for t in 1..=16 {
                let mut out = numbers.bytes(t);
                assert_eq!(prf_short(&key, &message, &mut out, t), 0);
                assert_eq!(out, expected(&key, &message, t), "m {m}, t {t}");
            }
        }
    }
}

#[test]
fn only_the_lent_bytes_are_written() {
    let message = counting(9);
    for lead in 0..=8 {
        for t in 1..=16 {
            let mut buffer = [BEFORE; 40];
            let out = &mut buffer[lead..lead + t];
            assert_eq!(prf_short(&KEY, &message, out, t), 0);
            assert_eq!(buffer[..lead], [BEFORE; 40][..lead]);
            assert_eq!(buffer[lead..lead + t], expected(&KEY, &message, t));
            assert_eq!(buffer[lead + t..], [BEFORE; 40][lead + t..]);
        }
    }
}

#[test]
fn an_output_is_not_cut_from_a_longer_one() {
    let long = expected(&KEY, b"deck", 16);
    let mut short = [0; 8];
    assert_eq!(prf_short(&KEY, b"deck", &mut short, 8), 0);
    assert_ne!(short[..], long[..8], "cut from the front");
    assert_ne!(short[..], long[8..], "cut from the end");
}

#[test]
fn keys_of_other_lengths_are_refused_with_2() {
    // 272 and 65,552 are 16 in their lowest bytes.
    for key in (0..=40).filter(|n| *n != 16).chain([272, 65_552]) {
        assert_refused(2, key, 4, 8, 8);
        // The first check that fails answers.
        assert_refused(2, key, 17, 8, 8);
        assert_refused(2, key, 17, 8, 9);
        assert_refused(2, key, 4, 0, 0);
    }
}

#[test]
fn longer_messages_are_refused_with_5() {
    for message in [17, 18, 24, 31, 32, 33, 255, 256, 272, 65_536 + 3] {
        assert_refused(5, 16, message, 8, 8);
        assert_refused(5, 16, message, 8, 9);
        assert_refused(5, 16, message, 0, 0);
    }
}

#[test]
fn other_output_lengths_are_refused_with_6() {
    for length in [0, 17, 18, 32, 256, 257, 1 << 32, (1 << 32) + 8, usize::MAX] {
        assert_refused(6, 16, 4, length.min(300), length);
        assert_refused(6, 16, 4, 8, length);
    }
}

#[test]
fn buffers_of_another_length_are_refused_with_6() {
    for out in 0..=20 {
        for length in (0..=20).filter(|n| *n != out) {
            assert_refused(6, 16, 4, out, length);
        }
    }
}
