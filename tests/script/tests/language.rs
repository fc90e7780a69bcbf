//! The script language: document 01's example, outputs and verdicts, every refusal that a short script can reach, and the ends of the input. What is expected is written out here, so that the
//! reference is held to it too.
use reference::script::field;
use script::{assert_prints, assert_talk, Talk, OPEN_MAC, OPEN_MAC_8, OPEN_PRF};

/// What Ascon's authors print for no bytes: the MAC under the key 00 01 .. 0f with tags of 16 bytes, both hashes, and both XOFs.
const MAC: &str = "eb1af688825d66bf2d53e135f9323315";
const HASH: &str = "7346bc14f036e87ae03d0997913088f5f68411434b3cf8b54fa796a80d251f91";
const XOF: &str = "5d4cbde6350ea4c174bd65b5b332f8408f99740b81aa02735eaefbcf0ba0339e";
const HASHA: &str = "aecd027026d0675f9de7a8ad8ccf512db64b1edcf0b20c388a0c7cc617aaa2c4";
const XOFA: &str = "7c10dffd6bb03be262d72fbe1b0f530013c6c4eadaabde278d6f29d579e3908d";

/// The MAC with its last bit changed.
const WRONG: &str = "eb1af688825d66bf2d53e135f9323314";

/// The MAC of no bytes under that key with tags of 8, 9, .. bytes, of the outside vectors. None begins as a longer one does.
const TAGS: [&str; 9] = [
    "3dc064871d4064a2",
    "cb8d9e9072a7f3753c",
    "80760f1d131a4303a131",
    "70c1bd34a13c94e447031d",
    "0c0a1e0efd16dfd285ddfae3",
    "920a442f25f08157be30ddc5c1",
    "0083d6c3916b28e3c46245e75794",
    "d78d1f2a332ac8f6d30f7953e04f13",
    MAC,
];

/// An open in mode 2 under a key of so many bytes, with a tag length.
fn open_mac(key: usize, tag_length: u8) -> String {
    let key = &[0xa5; 1_024][..key];
    format!("open 2 {}", field(&[key, &[tag_length]].concat()))
}

/// So many bytes, as a script has them.
fn bytes(count: usize) -> String {
    field(&vec![0xa5; count])
}

#[test]
fn the_example() {
    let script = b"call number bytes
open 3 -
feed 1 0102030405060708
draw 1 0000
close 1 -
feed 1 09
sum 0 -
";
    let expected = b"answer number bytes
ok 1 -
ok 2 -
ok 3 -
ok 3 -
no 12 -
ok 3 -
";
    assert_prints(script, expected);
    assert_prints(&script[..script.len() - 1], expected);
}

#[test]
fn outputs_and_verdicts() {
    let draw = |from: usize, to: usize, runs| format!("ok {runs} {}", &HASH[2 * from..2 * to]);
    let mut talk = Talk::default();
    // The hash in parts, and none of it before, between and after.
    talk.line("open 3 -", "ok 1 -")
        .line("draw 1 0000", "ok 2 -")
        .line("draw 1 0001", draw(0, 1, 2))
        .line("draw 1 0007", draw(1, 8, 2))
        .line("draw 1 0000", "ok 2 -")
        .line("draw 1 0001", draw(8, 9, 3))
        .line("draw 1 0017", draw(9, 32, 5))
        .line("draw 1 0000", "ok 5 -");
    // The XOF at once, and the hash and the XOF that have shorter runs: each of these counts as one, too.
    for (mode, ticket, output) in [(4, 2, XOF), (5, 3, HASHA), (6, 4, XOFA)] {
        talk.line(format!("open {mode} -"), format!("ok {ticket} -"))
            .line(format!("draw {ticket} 0020"), format!("ok 5 {output}"));
    }
    // The MAC: drawn, and then its tag; and its tag, damaged in the first and the last bit.
    talk.line(OPEN_MAC, "ok 5 -")
        .line("draw 5 0010", format!("ok 2 {MAC}"))
        .line(format!("check 5 {MAC}"), "pass 2 -")
        .line(OPEN_MAC, "ok 6 -")
        .line(format!("check 6 6{}", &MAC[1..]), "fail 2 -")
        .line(OPEN_MAC, "ok 7 -")
        .line(format!("check 7 {WRONG}"), "fail 2 -");
    talk.line("sum 0 -", "ok 26 -");
    for ticket in 1..=4 {
        talk.line(format!("close {ticket} -"), "ok 5 -");
    }
    talk.line("sum 0 -", "ok 26 -").assert();
}

/// The count of a check is that of a close after it. On the other ticket a draw of nothing ends feeding, as a check does, and a close follows.
#[test]
fn a_check_counts_as_a_close() {
    let mut talk = Talk::default();
    let counts = [
        (0, 1, 2),
        (31, 1, 2),
        (32, 2, 3),
        (33, 2, 3),
        (1_000, 32, 33),
    ];
    for ((fed, feeding, ended), checked) in counts.into_iter().zip((1..).step_by(2)) {
        let closed = checked + 1;
        for ticket in [checked, closed] {
            talk.line(OPEN_MAC, format!("ok {ticket} -")).line(
                format!("feed {ticket} {}", bytes(fed)),
                format!("ok {feeding} -"),
            );
        }
        talk.line(
            format!("check {checked} {WRONG}"),
            format!("fail {ended} -"),
        )
        .line(format!("draw {closed} 0000"), format!("ok {ended} -"))
        .line(format!("close {closed} -"), format!("ok {ended} -"));
    }
    // 2 + 2 + 3 + 3 + 33 runs, twice.
    talk.line("sum 0 -", "ok 86 -").assert();
}

/// A tag of each length passes on the ticket of its length, alone and whole: the first bytes of a longer one fail, and tags of other lengths are refused.
#[test]
fn tags_of_each_length() {
    let mut talk = Talk::default();
    let mut ticket = 0;
    let mut open = |talk: &mut Talk, length: usize| {
        ticket += 1;
        let open = format!("open 2 000102030405060708090a0b0c0d0e0f{length:02x}");
        talk.line(open, format!("ok {ticket} -"));
        ticket
    };
    for tag in TAGS {
        let length = tag.len() / 2;
        let own = open(&mut talk, length);
        for other in TAGS.into_iter().filter(|other| *other != tag) {
            talk.line(format!("check {own} {other}"), "no 4 -");
        }
        talk.line(format!("check {own} {tag}"), "pass 2 -");
        for longer in TAGS.into_iter().filter(|other| other.len() > tag.len()) {
            let cut = open(&mut talk, length);
            let check = format!("check {cut} {}", &longer[..tag.len()]);
            talk.line(check, "fail 2 -");
        }
        let drawn = open(&mut talk, length);
        talk.line(format!("draw {drawn} {length:04x}"), format!("ok 2 {tag}"))
            .line(format!("close {drawn} -"), "ok 2 -");
    }
    // 54 tickets, of which 36 are for tags that were cut.
    talk.line("sum 0 -", "ok 108 -").assert();
}

#[test]
fn refusal_1_no_mode() {
    let mut talk = Talk::default();
    for mode in [
        0,
        7,
        8,
        257,
        258,
        261,
        65_537,
        65_538,
        2_147_483_651,
        u32::MAX,
    ] {
        // Before 2 and 21: of no mode is any key right, and any tag length.
        talk.line(format!("open {mode} -"), "no 1 -")
            .line(format!("open {mode} {}", bytes(16)), "no 1 -")
            .line(format!("open {mode} {}10", bytes(16)), "no 1 -");
    }
    talk.lines(&[(OPEN_PRF, "ok 1 -"), (OPEN_MAC, "ok 2 -")])
        .lines(&[("open 3 -", "ok 3 -"), ("open 4 -", "ok 4 -")])
        .lines(&[("open 5 -", "ok 5 -"), ("open 6 -", "ok 6 -")])
        .assert();
}

#[test]
fn refusal_2_key_length() {
    let keyed: &[usize] = &[0, 1, 8, 15, 17, 32, 1024];
    let unkeyed: &[usize] = &[1, 16, 17, 1024];
    let mut talk = Talk::default();
    for mode in [1, 3, 4, 5, 6] {
        for count in if mode == 1 { keyed } else { unkeyed } {
            talk.line(format!("open {mode} {}", bytes(*count)), "no 2 -");
        }
    }
    // In mode 2 the last byte is no byte of the key. No bytes are a key of none, and sixteen one of fifteen.
    talk.line("open 2 -", "no 2 -")
        .line(format!("open 2 {}", bytes(16)), "no 2 -")
        .line("open 2 000102030405060708090a0b0c0d0e0f", "no 2 -");
    for count in [0, 1, 8, 15, 17, 32, 1023] {
        for tag_length in [8, 16] {
            talk.line(open_mac(count, tag_length), "no 2 -");
        }
    }
    talk.line(format!("open 1 {}", bytes(16)), "ok 1 -")
        .line(open_mac(16, 16), "ok 2 -")
        .lines(&[("open 3 -", "ok 3 -"), ("open 4 -", "ok 4 -")])
        .lines(&[("open 5 -", "ok 5 -"), ("open 6 -", "ok 6 -")])
        .assert();
}

#[test]
fn refusal_4_tag_length() {
    let mut talk = Talk::default();
    for (length, ticket) in (8..=16).zip(1..) {
        let check = |count| format!("check {ticket} {}", bytes(count));
        talk.line(open_mac(16, length), format!("ok {ticket} -"));
        let length = usize::from(length);
        for count in (0..=17).chain([32, 264, 1024]).filter(|c| *c != length) {
            talk.line(check(count), "no 4 -");
        }
        // Refused checks have not ended feeding, and have not closed the ticket.
        talk.line(format!("feed {ticket} -"), "ok 1 -")
            .line(format!("draw {ticket} 0000"), "ok 2 -")
            .line(check(length - 1), "no 4 -")
            .line(check(length), "fail 2 -")
            // 12 is before 4.
            .line(check(length - 1), "no 12 -");
    }
    talk.assert();
}

#[test]
fn refusal_11_never_issued() {
    let never = |talk: &mut Talk, tickets: [u32; 4]| {
        for ticket in tickets {
            talk.line(format!("feed {ticket} 00"), "no 11 -")
                .line(format!("draw {ticket} 0001"), "no 11 -")
                .line(format!("check {ticket} -"), "no 11 -")
                .line(format!("close {ticket} -"), "no 11 -");
        }
    };
    let mut talk = Talk::default();
    never(&mut talk, [0, 1, 2, u32::MAX]);
    talk.line(OPEN_MAC, "ok 1 -");
    never(&mut talk, [0, 2, 3, u32::MAX]);
    talk.line("feed 1 00", "ok 1 -")
        .line("draw 1 0000", "ok 2 -")
        .line(format!("check 1 {}", bytes(16)), "fail 2 -")
        // Issued, and closed by the check.
        .line("close 1 -", "no 12 -")
        .assert();
}

/// By a close, and by a check, whatever its verdict.
#[test]
fn refusal_12_closed() {
    let (right, wrong) = (format!("check 1 {MAC}"), format!("check 1 {WRONG}"));
    for (closing, answer, runs) in [
        ("close 1 -", "ok 1 -", 1),
        (&right, "pass 2 -", 2),
        (&wrong, "fail 2 -", 2),
    ] {
        let mut talk = Talk::default();
        talk.lines(&[(OPEN_MAC, "ok 1 -"), ("sum 0 -", "ok 1 -")])
            .line(closing, answer)
            .line("sum 0 -", format!("ok {runs} -"))
            .lines(&[
                ("feed 1 -", "no 12 -"),
                ("draw 1 0000", "no 12 -"),
                ("draw 1 0400", "no 12 -"),
                ("check 1 -", "no 12 -"),
                (&right, "no 12 -"),
                (&wrong, "no 12 -"),
                ("close 1 -", "no 12 -"),
                // Its place serves again; its number does not.
                (OPEN_MAC, "ok 2 -"),
                ("feed 1 00", "no 12 -"),
                (&right, "no 12 -"),
                ("feed 2 00", "ok 1 -"),
                ("close 1 -", "no 12 -"),
                ("close 2 -", "ok 1 -"),
            ])
            .line("sum 0 -", format!("ok {} -", runs + 1))
            .assert();
    }
}

#[test]
fn refusal_13_sixteen_open() {
    let mut talk = Talk::default();
    for ticket in 1..=16 {
        talk.line(OPEN_MAC, format!("ok {ticket} -"));
    }
    talk.line("open 3 -", "no 13 -")
        .line(OPEN_PRF, "no 13 -")
        .line(OPEN_MAC_8, "no 13 -")
        // After 1, 2 and 21.
        .line("open 7 -", "no 1 -")
        .line("open 1 -", "no 2 -")
        .line("open 2 -", "no 2 -")
        .line(open_mac(16, 7), "no 21 -")
        .line(open_mac(16, 17), "no 21 -")
        // A check that is refused makes no room.
        .line("check 9 -", "no 4 -")
        .line("open 3 -", "no 13 -")
        .line("sum 0 -", "ok 16 -");
    // Any place serves again, after a close, a right tag and a wrong one, with the next number: refused opens have taken none. The next ticket begins there afresh.
    for (closing, answer, opened) in [
        ("close 9 -".to_string(), "ok 1 -", 17),
        (format!("check 1 {MAC}"), "pass 2 -", 18),
        (format!("check 16 {WRONG}"), "fail 2 -", 19),
        ("close 17 -".to_string(), "ok 2 -", 20),
        (format!("check 20 {WRONG}"), "fail 2 -", 21),
        (format!("check 21 {MAC}"), "pass 2 -", 22),
    ] {
        talk.line(closing, answer)
            .line(OPEN_MAC, format!("ok {opened} -"))
            .line(OPEN_MAC, "no 13 -")
            .line(format!("draw {opened} 0010"), format!("ok 2 {MAC}"));
    }
    talk.line("sum 0 -", "ok 30 -").assert();
}

#[test]
fn refusal_15_feeding_has_ended() {
    assert_talk(&[
        ("open 3 -", "ok 1 -"),
        ("feed 1 -", "ok 1 -"),
        ("draw 1 0000", "ok 2 -"),
        ("feed 1 -", "no 15 -"),
        ("feed 1 00", "no 15 -"),
        (OPEN_MAC, "ok 2 -"),
        ("feed 2 00", "ok 1 -"),
        ("draw 2 0000", "ok 2 -"),
        ("feed 2 00", "no 15 -"),
        ("open 4 -", "ok 3 -"),
        ("draw 3 0001", "ok 2 5d"),
        ("feed 3 00", "no 15 -"),
        ("open 5 -", "ok 4 -"),
        ("draw 4 0001", "ok 2 ae"),
        ("feed 4 00", "no 15 -"),
        ("open 6 -", "ok 5 -"),
        ("draw 5 0000", "ok 2 -"),
        ("feed 5 00", "no 15 -"),
        ("sum 0 -", "ok 10 -"),
    ]);
}

#[test]
fn refusal_17_too_much_drawn() {
    let mut talk = Talk::default();
    // A refused draw has not ended feeding.
    talk.line(OPEN_MAC, "ok 1 -")
        .lines(&[("draw 1 0011", "no 17 -"), ("draw 1 0400", "no 17 -")])
        .line("feed 1 -", "ok 1 -")
        .line("draw 1 000f", format!("ok 2 {}", &MAC[..30]))
        .line("draw 1 0002", "no 17 -")
        .line("draw 1 0001", format!("ok 2 {}", &MAC[30..]))
        .lines(&[("draw 1 0001", "no 17 -"), ("draw 1 0000", "ok 2 -")]);
    talk.line(OPEN_MAC_8, "ok 2 -")
        .lines(&[("draw 2 0009", "no 17 -"), ("draw 2 0010", "no 17 -")])
        .line("feed 2 -", "ok 1 -")
        .line("draw 2 0007", format!("ok 2 {}", &TAGS[0][..14]))
        .line("draw 2 0002", "no 17 -")
        .line("draw 2 0001", format!("ok 2 {}", &TAGS[0][14..]))
        .lines(&[("draw 2 0001", "no 17 -"), ("draw 2 0000", "ok 2 -")]);
    for (mode, ticket, output) in [(3, 3, HASH), (5, 4, HASHA)] {
        talk.line(format!("open {mode} -"), format!("ok {ticket} -"))
            .line(format!("draw {ticket} 0021"), "no 17 -")
            .line(format!("draw {ticket} 0020"), format!("ok 5 {output}"))
            .line(format!("draw {ticket} 0001"), "no 17 -")
            .line(format!("draw {ticket} 0000"), "ok 5 -");
    }
    // Each tag length is a limit of its own.
    for (tag, ticket) in TAGS.into_iter().zip(5..) {
        let length = tag.len() / 2;
        let open = format!("open 2 000102030405060708090a0b0c0d0e0f{length:02x}");
        talk.line(open, format!("ok {ticket} -"))
            .line(format!("draw {ticket} {:04x}", length + 1), "no 17 -")
            .line(format!("draw {ticket} {length:04x}"), format!("ok 2 {tag}"))
            .line(format!("draw {ticket} 0001"), "no 17 -");
    }
    talk.assert();
}

#[test]
fn refusal_18_no_mac() {
    let mut talk = Talk::default();
    let opens = [OPEN_PRF, "open 3 -", "open 4 -", "open 5 -", "open 6 -"];
    for (open, ticket) in opens.iter().zip(1..) {
        talk.line(open, format!("ok {ticket} -"))
            .line(format!("check {ticket} {}", bytes(16)), "no 18 -")
            // Before 4.
            .line(format!("check {ticket} -"), "no 18 -")
            .line(format!("check {ticket} {}", bytes(8)), "no 18 -")
            .line(format!("feed {ticket} -"), "ok 1 -");
    }
    talk.line(OPEN_MAC, "ok 6 -")
        .line(format!("check 6 {}", bytes(16)), "fail 2 -")
        .assert();
}

#[test]
fn refusal_21_tag_length() {
    let mut talk = Talk::default();
    for tag_length in (0..=7).chain(17..=255) {
        talk.line(open_mac(16, tag_length), "no 21 -")
            // After 2.
            .line(open_mac(15, tag_length), "no 2 -")
            .line(open_mac(0, tag_length), "no 2 -");
    }
    // Refused opens have taken no number. In other modes a byte as low as this one is the key's.
    for (tag_length, ticket) in (8..=16).zip(1..) {
        talk.line(open_mac(16, tag_length), format!("ok {ticket} -"));
    }
    talk.line("open 1 0f0e0d0c0b0a09080706050403020100", "ok 10 -")
        .line("open 3 -", "ok 11 -")
        .line("sum 0 -", "ok 11 -")
        .assert();
}

#[test]
fn ends_of_the_input() {
    let ends = [
        ("", "stop 1 -\n"),
        ("\n", "stop 1 -\n"),
        ("\n\n", "stop 1 -\n"),
        ("\ncall number bytes\n", "stop 1 -\n"),
        ("call number bytes", ""),
        ("call number bytes\n", ""),
        ("call number bytes\n\n", "stop 2 -\n"),
        ("call number bytes\n\n\n", "stop 2 -\n"),
        ("call number bytes\n\nsum 0 -\n", "stop 2 -\n"),
        ("call number bytes\nsum 0 -", "ok 0 -\n"),
        ("call number bytes\nsum 0 -\n", "ok 0 -\n"),
        ("call number bytes\nsum 0 -\n\n", "ok 0 -\nstop 3 -\n"),
        ("call number bytes\nsum 0 -\n ", "ok 0 -\nstop 3 -\n"),
        ("call number bytes\nsum 0 -\n\0", "ok 0 -\nstop 3 -\n"),
        ("call number bytes\rsum 0 -\r", "stop 1 -\n"),
        ("call number bytes\r\nsum 0 -\r\n", "stop 1 -\n"),
        ("call number bytes\nsum 0 -\r\n", "stop 2 -\n"),
    ];
    for (input, rest) in ends {
        assert_prints(
            input.as_bytes(),
            format!("answer number bytes\n{rest}").as_bytes(),
        );
    }
}
