//! The permutation: twelve rounds, or the last n of them, by the printed tables.

/// Table 3 of "Ascon PRF, MAC, and Short-Input MAC" (source document 003), as printed.
const ROUND_CONSTANTS: [u64; 12] = [
    0xf0, 0xe1, 0xd2, 0xc3, 0xb4, 0xa5, 0x96, 0x87, 0x78, 0x69, 0x5a, 0x4b,
];

/// Table 4 of 003, as printed.
const S_BOX: [u8; 32] = [
    0x4, 0xb, 0x1f, 0x14, 0x1a, 0x15, 0x9, 0x2, 0x1b, 0x5, 0x8, 0x12, 0x1d, 0x3, 0x6, 0x1c, 0x1e,
    0x13, 0x7, 0xe, 0x0, 0xd, 0x11, 0x18, 0x10, 0xc, 0x1, 0x19, 0x16, 0xa, 0xf, 0x17,
];

/// How far the two copies of each word are rotated right.
const ROTATIONS: [[u32; 2]; 5] = [[19, 28], [61, 39], [1, 6], [10, 17], [7, 41]];

/// So many rounds, at most twelve. They have the last of the constants, as the slides "ASCON" (source document 001) have it: eight rounds have those of rounds 4
/// to 11.
pub fn permute(state: &mut [u64; 5], rounds: usize) {
    for constant in &ROUND_CONSTANTS[12 - rounds..] {
        state[2] ^= constant;
        *state = substitute(state);
        for (word, [a, b]) in state.iter_mut().zip(ROTATIONS) {
            *word ^= word.rotate_right(a) ^ word.rotate_right(b);
        }
    }
}

/// The S-box as sums of products, worked out from the table: bit m of entry i is set where the product of the input bits that are set in m is a term of the output bit of word i. x0's bits are on top.
const SUMS: [u32; 5] = {
    let mut sums = [0; 5];
    let mut n = 0;
    while n < 5 * 32 * 32 {
        let (i, m, below) = (n / 1_024, n / 32 % 32, n % 32);
        if below & m == below {
            sums[i] ^= (S_BOX[below] as u32 >> (4 - i) & 1) << m;
        }
        n += 1;
    }
    sums
};

/// The S-box at all 64 places at once.
fn substitute(state: &[u64; 5]) -> [u64; 5] {
    let mut products = [u64::MAX; 32];
    for m in 1..32usize {
        products[m] = products[m & (m - 1)] & state[4 - m.trailing_zeros() as usize];
    }
    SUMS.map(|mut terms| {
        let mut sum = 0;
        while terms != 0 {
            sum ^= products[terms.trailing_zeros() as usize];
            terms &= terms - 1;
        }
        sum
    })
}

#[cfg(test)]
mod tests {
    use super::*;

    #[test]
    fn the_s_box_is_a_permutation() {
        let mut seen = S_BOX.to_vec();
        seen.sort_unstable();
        assert_eq!(seen, (0..32).collect::<Vec<u8>>());
    }

    /// The definition: the five bits at each of the 64 places are looked up in the table.
    fn look_up(state: &[u64; 5]) -> [u64; 5] {
        let mut after = [0; 5];
        for place in 0..64 {
            let column = state.iter().fold(0, |n, word| 2 * n + (word >> place & 1)) as usize;
            for (i, word) in after.iter_mut().enumerate() {
                *word |= u64::from(S_BOX[column] >> (4 - i) & 1) << place;
            }
        }
        after
    }

    /// Every column at every place, with every other column beside it.
    #[test]
    fn the_sums_of_products_are_the_table() {
        for column in 0..32 {
            for other in 0..32 {
                for place in 0..64 {
                    let state = std::array::from_fn(|i| {
                        let (bit, rest) = (column >> (4 - i) & 1, other >> (4 - i) & 1);
                        (rest * u64::MAX) & !(1 << place) | bit << place
                    });
                    assert_eq!(substitute(&state), look_up(&state), "{state:x?}");
                }
            }
        }
    }
}
