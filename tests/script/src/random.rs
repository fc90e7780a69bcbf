//! Random scripts, whole and damaged.
use reference::numbers::Numbers;
use reference::{MODES, PRF, XOF, XOFA};

mod damage;
mod day;
pub use damage::damage;
pub use day::day;
use day::day_at_a_limit;

/// The script of a seed, of random length, whole or damaged. Of a thousand seeds in a row a few begin at a limit, which takes long scripts.
pub fn script(seed: u64) -> Vec<u8> {
    let mut numbers = Numbers(seed);
    match seed % 1_000 {
        500 => return day_at_a_limit(&mut numbers, MODES[(seed / 1_000 % 6) as usize], false),
        501 | 502 => return day_at_a_limit(&mut numbers, &PRF, true),
        503 | 504 => return day_at_a_limit(&mut numbers, &XOF, true),
        505 | 506 => return day_at_a_limit(&mut numbers, &XOFA, true),
        _ => (),
    }
    let lines = match numbers.below(20) {
        0..=7 => numbers.between(0, 10),
        8..=14 => numbers.between(10, 60),
        15..=18 => numbers.between(60, 400),
        _ => numbers.between(400, 3_000),
    };
    let mut script = day(&mut numbers, lines);
    if numbers.one_in(2) {
        for _ in 0..numbers.between(1, 3) {
            damage(&mut numbers, &mut script);
        }
    }
    script
}
