//! The linked permutation against the printed state, the outside vectors and the reference, and its refusals.
use linked::{permute_chain, permute_row};
use reference::numbers::Numbers;
use reference::{assert_vectors, mac_lengths, permute, vectors, HASH};

/// Permutes a state by the linked function, which makes twelve rounds.
fn permute_linked(state: &mut [u64; 5]) {
    assert_eq!(permute_row(state), 0);
}

fn assert_agrees(state: [u64; 5]) {
    let (mut linked, mut expected) = (state, state);
    permute_linked(&mut linked);
    permute(&mut expected, 12);
    assert_eq!(linked, expected, "permuting {state:016x?}");
}

#[test]
fn the_hash_state_after_its_first_run() {
    let mut state = [HASH.start, 0, 0, 0, 0];
    permute_linked(&mut state);
    let printed = [
        0xee9398aadb67f03d,
        0x8bb21831c60f1002,
        0xb48a92db98d5da62,
        0x43189921b8f8e3e8,
        0x348fa5c9d525e140,
    ];
    assert_eq!(state, printed);
}

/// Of runs that have fewer than twelve rounds the reference makes all.
#[test]
fn the_vectors() {
    let permute = |state: &mut [u64; 5], rounds| match rounds {
        12 => permute_linked(state),
        _ => permute(state, rounds),
    };
    assert_vectors(permute, &vectors());
    assert_vectors(permute, &mac_lengths());
}

#[test]
fn states_of_one_bit_and_of_all_but_one() {
    assert_agrees([0; 5]);
    assert_agrees([u64::MAX; 5]);
    for bit in 0..320 {
        let mut state = [0; 5];
        state[bit / 64] = 1 << (bit % 64);
        assert_agrees(state);
        assert_agrees(state.map(|word| !word));
    }
}

#[test]
fn random_states() {
    let mut numbers = Numbers(2024);
    for _ in 0..20_000 {
        assert_agrees(std::array::from_fn(|_| numbers.number()));
    }
}

#[test]
fn rows_of_other_lengths_are_refused_and_left() {
    let mut numbers = Numbers(7);
    // 261 and 65,541 are 5 in their lowest bytes.
    for length in (0..=300).filter(|&length| length != 5).chain([65_541]) {
        let row: Vec<u64> = (0..length).map(|_| numbers.number()).collect();
        let mut lent = row.clone();
        assert_eq!(permute_row(&mut lent), 7, "{length} words");
        assert_eq!(lent, row, "{length} words");
    }
}

#[test]
fn only_the_lent_words_change() {
    let mut numbers = Numbers(11);
    let buffer: Vec<u64> = (0..15).map(|_| numbers.number()).collect();
    for start in 0..=10 {
        let (mut lent, mut expected) = (buffer.clone(), buffer.clone());
        assert_eq!(permute_row(&mut lent[start..start + 5]), 0);
        permute((&mut expected[start..start + 5]).try_into().unwrap(), 12);
        assert_eq!(lent, expected, "five words from {start} on");
    }
}

/// Of any number of rounds: more than twelve are twelve. 264 and 65,544 are 8 in their lowest bytes, and 2^32 is 0.
#[test]
fn chains_of_permutations() {
    for rounds in (0..=16).chain([255, 264, 65_544, 1 << 32, u64::MAX]) {
        for x0 in [0, 1, HASH.start, u64::MAX] {
            let mut state = [x0, 0, 0, 0, 0];
            for times in 0..50 {
                let given = permute_chain(x0, rounds, times);
                assert_eq!(given, state[0], "{x0:x}, {times} times {rounds} rounds");
                permute(&mut state, rounds.min(12) as usize);
            }
        }
    }
    let mut state = [HASH.start, 0, 0, 0, 0];
    for _ in 0..65_537 {
        permute(&mut state, 12);
    }
    assert_eq!(permute_chain(HASH.start, 12, 65_537), state[0]);
}
