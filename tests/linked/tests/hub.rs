//! Feeds through the hub: run counts, by value and in place, beside the plain machine; messages in parts, in place, beside the one-shot reference; and tickets
//! with tags of every length.
use linked::{feeds_by_value, feeds_in_place};
use reference::machine::{Call, Machine, TAG_LENGTHS};
use reference::numbers::Numbers;
use reference::{counting, mac_lengths, permute, sponge, Mode, HASH, HASHA, KEY, MAC, MODES};

/// What the plain machine answers a feed of no bytes with, after the same calls.
fn expected(ticket: u32, bytes: &[u8], times: usize) -> u64 {
    let mut machine = Machine::default();
    for _ in 0..16 {
        machine.call(&Call::Open {
            mode: 2,
            key: vec![0; 16],
            tag_length: 16,
        });
    }
    for _ in 0..times {
        machine.call(&Call::Feed {
            ticket,
            bytes: bytes.to_vec(),
        });
    }
    machine
        .call(&Call::Feed {
            ticket,
            bytes: Vec::new(),
        })
        .runs
}

#[test]
fn run_counts_are_the_plain_machines() {
    let bytes: Vec<u8> = (0..100).collect();
    for ticket in [0, 1, 2, 8, 15, 16, 17, u32::MAX] {
        for length in [0, 1, 7, 31, 32, 33, 64, 100] {
            for times in [0, 1, 2, 5] {
                let right = expected(ticket, &bytes[..length], times);
                assert_eq!(feeds_by_value(ticket, &bytes[..length], times), right);
                assert_eq!(feeds_in_place(ticket, &bytes[..length], times), right);
            }
        }
    }
}

/// A ticket takes 16,777,216 bytes: the count grows to that limit, and a feed that would pass it is refused and changes nothing. 7 and 1,000 do not divide it; 65,536 does.
#[test]
fn the_count_stops_at_the_limit() {
    let bytes = vec![7u8; 16_777_217];
    for (length, full) in [
        (7, 2_396_745),
        (1_000, 16_777),
        (65_536, 256),
        (16_777_215, 1),
        (16_777_216, 1),
        (16_777_217, 0),
    ] {
        for times in [full, full + 1, full + 3] {
            let right = expected(5, &bytes[..length], times);
            assert_eq!(right, 1 + (length * full / 32) as u64);
            assert_eq!(feeds_by_value(5, &bytes[..length], times), right);
            assert_eq!(feeds_in_place(5, &bytes[..length], times), right);
        }
    }
}

/// A message in parts through a ticket of a mode of the reference.
fn parts_in_place(mode: &Mode, message: &[u8], first: usize, second: usize, out: &mut [u8]) -> u64 {
    let tag_length = mode.tag_length() as u32;
    linked::parts_in_place(
        mode.number,
        tag_length,
        mode.given(&KEY),
        message,
        first,
        second,
        out,
    )
}

/// Holds a message that is fed in place, in parts of so many bytes and a rest, against the reference's output and the formula.
fn assert_parts(mode: &Mode, message: &[u8], parts: impl IntoIterator<Item = (usize, usize)>) {
    let drawn = mode.most_drawn.min(40);
    let (output, runs) = sponge(permute, mode, &KEY, message, drawn);
    assert_eq!(runs, mode.runs(message.len(), Some(drawn)));
    for (first, second) in parts {
        let mut out = vec![0xa5; drawn];
        let answer = parts_in_place(mode, message, first, second, &mut out);
        assert_eq!(
            (out, answer),
            (output.clone(), runs),
            "mode {}, tags of {}, {} bytes in parts of {first}, {second} and the rest",
            mode.number,
            mode.tag_length(),
            message.len()
        );
    }
}

#[test]
fn every_split_in_two() {
    let message = Numbers(5).bytes(100);
    for mode in MODES.into_iter().chain([&Mode::mac(8)]) {
        for n in 0..=100 {
            assert_parts(mode, &message[..n], (0..=n).map(|first| (first, n - first)));
        }
    }
}

#[test]
fn every_split_in_three() {
    let message = Numbers(6).bytes(100);
    for mode in [&MAC, &HASH, &HASHA] {
        for n in 0..=100 {
            let parts =
                (0..=n).flat_map(|first| (0..=n - first).map(move |second| (first, second)));
            assert_parts(mode, &message[..n], parts);
        }
    }
}

#[test]
fn parts_past_the_end_are_cut_at_the_end() {
    let message = Numbers(7).bytes(40);
    for mode in MODES {
        for past in [41, 1 << 32, usize::MAX] {
            assert_parts(mode, &message, [(past, past), (13, past), (past, 13)]);
        }
    }
}

/// The middle part alone would pass the limit: it is left out, and the first and the last are fed. Nothing else shows where a message was cut.
#[test]
fn a_part_past_the_limit_is_left_out() {
    let message = Numbers(9).bytes(16_777_220);
    for mode in MODES {
        let drawn = mode.most_drawn.min(40);
        for first in [0, 1, 7, 8, 9, 31, 33] {
            let second = 16_777_217 - first;
            let fed = [&message[..first], &message[16_777_217..]].concat();
            let expected = sponge(permute, mode, &KEY, &fed, drawn);
            let mut out = vec![0xa5; drawn];
            let runs = parts_in_place(mode, &message, first, second, &mut out);
            assert_eq!((out, runs), expected, "mode {}, first {first}", mode.number);
        }
    }
}

/// The outside vectors with tags of each length: fed at once, in halves, and in three parts.
#[test]
fn the_vectors_of_tag_lengths() {
    for vector in mac_lengths() {
        let n = vector.length;
        for (first, second) in [(n, 0), (n / 2, n), (n / 3, n / 3), (1, 7), (31, 2)] {
            let mut out = vec![0xa5; vector.output.len()];
            let runs = parts_in_place(&vector.mode, &counting(n), first, second, &mut out);
            let formula = vector.mode.runs(n, Some(out.len()));
            assert_eq!(
                (&out, runs),
                (&vector.output, formula),
                "{n} bytes, a tag of {}, parts of {first} and {second}",
                out.len()
            );
        }
    }
}

/// A message is refused: the answer is 0, and every byte of what was lent is kept.
fn assert_refused(mode: u32, tag_length: u32, key: &[u8], lent: usize) {
    let mut out = vec![0xa5; lent];
    let message = b"the ramp is clear";
    let answer = linked::parts_in_place(mode, tag_length, key, message, 3, 4, &mut out);
    let kept = out.iter().all(|&byte| byte == 0xa5);
    assert_eq!(
        (answer, kept),
        (0, true),
        "mode {mode}, tags of {tag_length}, a key of {} bytes, {lent} bytes lent",
        key.len()
    );
}

/// Tag lengths that no ticket has. 256 + 8 and the like are a right one in their lowest bits.
const WRONG: [u32; 13] = [
    0,
    1,
    7,
    17,
    18,
    255,
    256,
    256 + 8,
    256 + 16,
    65_536 + 8,
    (1 << 31) + 8,
    u32::MAX - 7,
    u32::MAX,
];

/// Even a draw of nothing is refused: there is no ticket.
#[test]
fn tag_lengths_outside_8_to_16_are_refused() {
    for tag_length in WRONG {
        for lent in [0, 1, 7, 8, 16] {
            assert_refused(2, tag_length, &KEY, lent);
        }
    }
    for tag_length in TAG_LENGTHS {
        let answer = parts_in_place(&Mode::mac(tag_length), b"ramp", 3, 4, &mut []);
        assert_eq!(answer, 2, "tags of {tag_length}");
    }
}

#[test]
fn other_modes_take_no_notice_of_a_tag_length() {
    for mode in MODES.into_iter().filter(|mode| mode.number != 2) {
        let (output, runs) = sponge(permute, mode, &KEY, b"ramp", 32);
        for tag_length in WRONG.into_iter().chain(8..=16) {
            let key = mode.given(&KEY);
            let mut out = vec![0xa5; 32];
            let answer =
                linked::parts_in_place(mode.number, tag_length, key, b"ramp", 1, 2, &mut out);
            assert_eq!(
                (&out, answer),
                (&output, runs),
                "mode {}, {tag_length}",
                mode.number
            );
        }
    }
}

#[test]
fn numbers_that_are_no_mode_are_refused() {
    for number in [0, 7, 8, 255, 257, 258, 259, 260, 261, 262, u32::MAX] {
        for tag_length in [0, 8, 16] {
            assert_refused(number, tag_length, &KEY, 8);
            assert_refused(number, tag_length, &[], 8);
        }
    }
}

#[test]
fn keys_of_other_lengths_are_refused() {
    let key = Numbers(8).bytes(33);
    for mode in MODES {
        let right = mode.given(&KEY).len();
        for length in (0..=33).filter(|&length| length != right) {
            assert_refused(mode.number, mode.tag_length() as u32, &key[..length], 16);
        }
    }
}

#[test]
fn outputs_past_the_limit_are_refused() {
    let macs: Vec<Mode> = TAG_LENGTHS.map(Mode::mac).collect();
    for mode in MODES.into_iter().chain(&macs) {
        let mut most = vec![0xa5; mode.most_drawn];
        let answer = parts_in_place(mode, &[7; 17], 3, 4, &mut most);
        let expected = sponge(permute, mode, &KEY, &[7; 17], mode.most_drawn);
        assert!((most, answer) == expected, "mode {}", mode.number);
        let (number, tag_length) = (mode.number, mode.tag_length() as u32);
        for past in [1, 2, 100] {
            assert_refused(number, tag_length, mode.given(&KEY), mode.most_drawn + past);
        }
    }
}
