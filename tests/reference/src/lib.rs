//! Ascon, written for comparison alone from "Ascon PRF, MAC, and Short-Input MAC" (source document 003), "Additional Modes for Ascon" (source document 004) and the slides "ASCON" (source document 001): plain, from the printed tables, and sharing nothing with the code under test.

pub mod listing;
pub mod machine;
pub mod numbers;
pub mod script;

mod permutation;
mod sponge;
mod vectors;

pub use permutation::permute;
pub use sponge::{mac, prf_short, sponge, Mode, HASH, HASHA, MAC, MODES, PRF, XOF, XOFA};
pub use vectors::{
    assert_vectors, counting, mac_lengths, published, short_vectors, vectors, ShortVector, Vector,
    KEY,
};
