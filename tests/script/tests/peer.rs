//! The same program in plain C, with which the benchmark compares, against the reference: so what is timed does the same work.
use script::random::script;
use script::{assert_same, root, through_a_pipe};
use std::process::Command;

#[test]
fn the_peer_in_plain_c() {
    let peer = root().join("target/tests/peer");
    let sources = ["bench/script.c", "bench/plain.c"].map(|source| root().join(source));
    std::fs::create_dir_all(peer.parent().unwrap()).unwrap();
    let mut cc = Command::new("cc");
    cc.args(["-O3", "-std=c11", "-Wall", "-Wextra", "-Werror", "-o"]);
    let built = cc
        .arg(&peer)
        .args(sources)
        .status()
        .expect("cc is installed");
    assert!(built.success(), "cc: {built}");
    for seed in 1_000_100..1_000_600 {
        let script = script(seed);
        let printed = through_a_pipe(&peer, &script);
        assert_same(&script, &printed, &reference::script::run(&script));
    }
}
