//! How a table of the papers is written in the code, which proofs see only in part.
use docs::read;

/// Table 3 of "Ascon PRF, MAC, and Short-Input MAC" (source document 003), line by line.
const TABLE: &str = "
    0   00000000000000f0   6   0000000000000096
    1   00000000000000e1   7   0000000000000087
    2   00000000000000d2   8   0000000000000078
    3   00000000000000c3   9   0000000000000069
    4   00000000000000b4   10  000000000000005a
    5   00000000000000a5   11  000000000000004b
";

/// The cases of `round_constant` are the table's rows, those of its left half first, each on a line of its own and with its digits.
#[test]
fn round_constants_as_printed() {
    let words: Vec<&str> = TABLE.split_whitespace().collect();
    let half = |first: usize| words.chunks(2).skip(first).step_by(2);
    let case = |row: &[&str]| format!("{} => 0x{},", row[0], row[1]);
    let mut printed: Vec<String> = half(0).chain(half(1)).map(case).collect();
    // A match covers every number.
    printed[11] = printed[11].replace(" =>", ".. =>");

    let code = read("crates/permutation/src/lib.rt");
    let (_, body) = code.split_once("fn round_constant(").unwrap();
    let (_, cases) = body.split_once("match i {\n").unwrap();
    let (cases, _) = cases.split_once("    }\n}\n").unwrap();
    let listed: Vec<&str> = cases.lines().map(str::trim).collect();
    assert_eq!(listed, printed);
}
