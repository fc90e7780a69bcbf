//! The linked sealing and judging against the outside vectors and the reference: tags, verdicts, run counts, refusals, and every byte of the frame.
use linked::{seal, seal_runs, verify, verify_runs};
use reference::numbers::Numbers;
use reference::{counting, mac, vectors, KEY};
use std::ops::Range;

const PASSES: u32 = 0;
const FAILS: u32 = 255;

/// Holds both calls to a refusal, and that each byte of the frame is as it was.
fn assert_refused(number: u32, key: &[u8], frame: &[u8], body: usize) {
    let given = format!(
        "key of {}, frame of {}, body of {body}",
        key.len(),
        frame.len()
    );
    let mut after = frame.to_vec();
    assert_eq!(seal(key, &mut after, body), number, "{given}");
    assert_eq!(seal_runs(key, &mut after, body), 0, "{given}");
    assert_eq!(after, frame, "{given}");
    assert_eq!(verify(key, frame, body), number, "{given}");
    assert_eq!(verify_runs(key, frame, body), 0, "{given}");
}

#[test]
fn the_vectors() {
    let mut tried = 0;
    for vector in vectors().iter().filter(|v| v.mode.number == 2) {
        let mut frame = counting(vector.length);
        frame.extend([0; 16]);
        assert_eq!(seal(&KEY, &mut frame, vector.length), 0);
        assert_eq!(frame[..vector.length], counting(vector.length));
        assert_eq!(frame[vector.length..], vector.output);
        assert_eq!(verify(&KEY, &frame, vector.length), PASSES);
        tried += 1;
    }
    assert_eq!(tried, 139);
}

/// Bodies of every length, frames that begin at every place of a word, and with no byte, a few or many after the tag.
#[test]
fn every_body_length_at_every_offset() {
    let mut numbers = Numbers(21);
    let key: [u8; 16] = numbers.bytes(16).try_into().unwrap();
    for body in 0..=300 {
        let content = numbers.bytes(body);
        let tag = mac(&key, &content, 16);
        for lead in 0..=8 {
            for trail in [0, 1, 7, 8, 16, 33] {
                let before = numbers.bytes(lead + body + 16 + trail);
                let mut expected = before.clone();
                expected[lead..lead + body].copy_from_slice(&content);
                let mut buffer = expected.clone();
                expected[lead + body..lead + body + 16].copy_from_slice(&tag);
                assert_eq!(seal(&key, &mut buffer[lead..], body), 0);
                assert_eq!(
                    buffer, expected,
                    "body of {body}, {lead} before, {trail} after"
                );
                assert_eq!(verify(&key, &buffer[lead..], body), PASSES);
            }
        }
    }
}

#[test]
fn the_runs_reported() {
    for body in 0..=300 {
        let mut frame = counting(body + 20);
        let runs = (body / 32 + 2) as u64;
        assert_eq!(seal_runs(&KEY, &mut frame, body), runs, "body of {body}");
        assert_eq!(verify(&KEY, &frame, body), PASSES);
        assert_eq!(verify_runs(&KEY, &frame, body), runs, "body of {body}");
        frame[body] ^= 1;
        assert_eq!(verify(&KEY, &frame, body), FAILS);
        assert_eq!(verify_runs(&KEY, &frame, body), runs, "body of {body}");
    }
}

/// Among them one that the hub would refuse to be fed: a frame may be of any length.
#[test]
fn long_bodies() {
    for body in [1_023, 1_024, 65_535, 65_536, 1_000_003, 16_777_217] {
        let mut frame = Numbers(body as u64).bytes(body + 16 + 3);
        let before = frame.clone();
        let runs = (body / 32 + 2) as u64;
        assert_eq!(seal_runs(&KEY, &mut frame, body), runs);
        assert_eq!(verify_runs(&KEY, &frame, body), runs);
        assert_eq!(frame[..body], before[..body]);
        assert_eq!(frame[body..body + 16], mac(&KEY, &before[..body], 16));
        assert_eq!(frame[body + 16..], before[body + 16..]);
        assert_eq!(verify(&KEY, &frame, body), PASSES);
        for damaged in [0, body / 2, body - 1, body, body + 15] {
            frame[damaged] ^= 0x80;
            assert_eq!(verify(&KEY, &frame, body), FAILS, "byte {damaged}");
            frame[damaged] ^= 0x80;
        }
    }
}

/// Bodies of many lengths in sealed frames, with five bytes after the tag.
fn sealed_frames() -> impl Iterator<Item = (usize, Vec<u8>)> {
    (0..=80).chain([300]).map(|body| {
        let mut frame = counting(body + 16 + 5);
        assert_eq!(seal(&KEY, &mut frame, body), 0);
        (body, frame)
    })
}

/// Holds the verdict of a frame with any one of some bits changed.
fn assert_verdict(frame: &[u8], body: usize, bits: Range<usize>, verdict: u32) {
    let mut frame = frame.to_vec();
    for bit in bits {
        frame[bit / 8] ^= 1 << (bit % 8);
        let given = format!("body of {body}, bit {bit}");
        assert_eq!(verify(&KEY, &frame, body), verdict, "{given}");
        frame[bit / 8] ^= 1 << (bit % 8);
    }
}

#[test]
fn a_bit_damaged_anywhere_fails() {
    for (body, frame) in sealed_frames() {
        assert_verdict(&frame, body, 0..8 * (body + 16), FAILS);
    }
}

/// What stands after the tag is not part of the frame's content.
#[test]
fn a_bit_changed_after_the_tag_passes() {
    for (body, frame) in sealed_frames() {
        assert_verdict(&frame, body, 8 * (body + 16)..8 * frame.len(), PASSES);
    }
}

#[test]
fn a_key_with_a_bit_changed_fails() {
    for (body, frame) in sealed_frames() {
        for bit in 0..128 {
            let mut key = KEY;
            key[bit / 8] ^= 1 << (bit % 8);
            assert_eq!(verify(&key, &frame, body), FAILS, "bit {bit} of the key");
        }
    }
}

#[test]
fn another_body_length_fails() {
    let mut frame = counting(100);
    assert_eq!(seal(&KEY, &mut frame, 60), 0);
    for body in 0..=84 {
        let verdict = if body == 60 { PASSES } else { FAILS };
        assert_eq!(verify(&KEY, &frame, body), verdict, "body of {body}");
    }
}

#[test]
fn keys_of_other_lengths_are_refused_with_2() {
    // 272 and 65,552 are 16 in their lowest bytes.
    for length in (0..=40).filter(|n| *n != 16).chain([272, 65_552]) {
        assert_refused(2, &counting(length), &counting(60), 44);
        // The first check that fails answers.
        assert_refused(2, &counting(length), &counting(60), 45);
        assert_refused(2, &counting(length), &[], usize::MAX);
    }
}

#[test]
fn frames_with_no_room_for_the_tag_are_refused_with_3() {
    for length in 0..=64 {
        let frame = counting(length);
        for body in 0..=80 {
            if body + 16 > length {
                assert_refused(3, &KEY, &frame, body);
            } else {
                assert_eq!(seal(&KEY, &mut frame.clone(), body), 0);
            }
        }
    }
}

#[test]
fn huge_body_numbers_are_refused_with_3() {
    for length in [0, 1, 15, 16, 17, 300] {
        let frame = counting(length);
        for less in 0..=40 {
            assert_refused(3, &KEY, &frame, usize::MAX - less);
        }
        for body in [1 << 63, (1 << 63) - 16, 1 << 32, (1 << 32) - 16] {
            assert_refused(3, &KEY, &frame, body);
        }
    }
}
