//! Malformed lines by kind, each beside a well-formed line that is as close to it as can be.

type Text = &'static str;

/// A malformed line, the well-formed one beside it, and what that one gives after two opens, of the MAC and of the XOF.
#[derive(Clone)]
pub struct Pair {
    pub malformed: Vec<u8>,
    pub well_formed: Vec<u8>,
    pub answer: Text,
}

/// All of them.
pub fn malformed() -> Vec<Pair> {
    let mut all = too_many_bytes();
    all.extend(CALLS.iter().flat_map(of_a_call));
    all.extend(FIELDS.iter().flat_map(of_a_field));
    all.extend(LINES.iter().flat_map(of_a_line));
    all
}

fn pair(malformed: impl Into<Vec<u8>>, well_formed: impl Into<Vec<u8>>, answer: Text) -> Pair {
    Pair {
        malformed: malformed.into(),
        well_formed: well_formed.into(),
        answer,
    }
}

/// A well-formed line of each call, and what it gives.
const CALLS: [(Text, Text); 6] = [
    ("open 3 -", "ok 3 -"),
    ("feed 1 0a", "ok 1 -"),
    ("draw 2 0000", "ok 2 -"),
    ("check 1 0123456789abcdef0123456789abcdef", "fail 2 -"),
    ("close 1 -", "ok 1 -"),
    ("sum 0 -", "ok 2 -"),
];

/// What each of them can be turned into.
fn of_a_call(&(line, answer): &(Text, Text)) -> Vec<Pair> {
    let [name, number, bytes] = line.split(' ').collect::<Vec<_>>()[..] else {
        panic!("three fields: {line}");
    };
    let named = |other| format!("{other} {number} {bytes}").into_bytes();
    let numbered = |other| format!("{name} {other} {bytes}").into_bytes();
    let filled = |form: &str| {
        let form = form.replace("CALL", name).replace("NUMBER", number);
        form.replace("BYTES", bytes).into_bytes()
    };
    let mut all: Vec<Vec<u8>> = FORMS.map(filled).into();
    all.extend(other_names(name).map(named));
    all.extend(other_numbers(number).map(numbered));
    all.extend(NO_NUMBERS.map(String::from).map(numbered));
    all.extend(high_bytes(line));
    let beside = |malformed| pair(malformed, line, answer);
    all.into_iter().map(beside).collect()
}

/// Forms of a malformed line. CALL NUMBER BYTES would be the well-formed one.
const FORMS: [Text; 28] = [
    // Fields that are missing or empty.
    "CALLNUMBER BYTES",
    "CALL",
    "CALL ",
    "CALL  ",
    "CALL NUMBER",
    "CALL NUMBER ",
    "CALL BYTES",
    "CALL  BYTES",
    " NUMBER BYTES",
    "NUMBER BYTES",
    // Fields too many.
    "CALL NUMBER BYTES -",
    "CALL NUMBER BYTES 00",
    "CALL NUMBER BYTES NUMBER BYTES",
    // Spaces, tabs and other bytes.
    " CALL NUMBER BYTES",
    "CALL NUMBER BYTES ",
    "CALL  NUMBER BYTES",
    "CALL NUMBER  BYTES",
    "CALL\tNUMBER BYTES",
    "CALL NUMBER\tBYTES",
    "CALL NUMBER BYTES\t",
    "CALL NUMBER BYTES\r",
    "\rCALL NUMBER BYTES",
    "CALL NUMBER BYTES\0",
    "\0CALL NUMBER BYTES",
    "CALL\0NUMBER BYTES",
    "CALL NUMBER BYTES\u{a0}",
    "\u{feff}CALL NUMBER BYTES",
    "CALL NUMBER BYTESé",
];

/// A call's name in capitals, cut, and longer, and names of no call.
fn other_names(name: &str) -> [String; 7] {
    let (first, rest) = name.split_at(1);
    [
        format!("{}{rest}", first.to_uppercase()),
        name.to_uppercase(),
        name[..name.len() - 1].to_string(),
        rest.to_string(),
        format!("{name}s"),
        "seal".to_string(),
        "call".to_string(),
    ]
}

/// A number in ways that are not its own, what would be the same one in 32, 64 or 128 bits, and very many digits.
fn other_numbers(number: &str) -> [String; 9] {
    // Each of the three powers of 2 ends in 6.
    let last = 6 + number.parse::<u32>().unwrap();
    [
        format!("0{number}"),
        format!("00000000000000000000{number}"),
        format!("+{number}"),
        format!("-{number}"),
        format!("429496729{last}"),
        format!("1844674407370955161{last}"),
        format!("34028236692093846346337460743176821145{last}"),
        "9".repeat(2_000),
        format!("1{}", "0".repeat(2_000)),
    ]
}

/// What is no number, or not a number's own way, or more than 32 bits hold.
const NO_NUMBERS: [Text; 16] = [
    "+",
    "-",
    "00",
    "01",
    "1a",
    "a",
    "0x1",
    "1.",
    "1_0",
    "/",
    ":",
    "１",
    " 1",
    "1,000",
    "4294967296",
    "99999999999999999999",
];

/// Each byte of a line in turn above 127, with the same low bits.
fn high_bytes(line: &str) -> impl Iterator<Item = Vec<u8>> + '_ {
    (0..line.len()).map(move |at| {
        let mut bytes = line.as_bytes().to_vec();
        bytes[at] |= 0x80;
        bytes
    })
}

/// A call and a well-formed last field, what they give, and malformed fields beside it.
type Field = (Text, Text, Text, &'static [Text]);

/// Bytes of opens in mode 2, the tag length last.
const TAGS_OF_16: Text = "000102030405060708090a0b0c0d0e0f10";
const TAGS_OF_7: Text = "000102030405060708090a0b0c0d0e0f07";

const FIELDS: [Field; 22] = [
    // Digits and pairs of digits.
    ("feed 1", "-", "ok 1 -", &["--", "-0", "00-", "_", "="]),
    ("feed 1", "00", "ok 1 -", &["0", "0/", "0-", "-00", "+0"]),
    ("feed 1", "0000", "ok 1 -", &["000", "00\u{0}0"]),
    ("feed 1", "0000", "ok 1 -", &["0x00", "00,00"]),
    ("feed 1", "09", "ok 1 -", &["0:"]),
    ("feed 1", "90", "ok 1 -", &[":0"]),
    ("feed 1", "0a", "ok 1 -", &["0A", "0`", "0@"]),
    ("feed 1", "a0", "ok 1 -", &["A0"]),
    ("feed 1", "0e", "ok 1 -", &["é"]),
    ("feed 1", "0f", "ok 1 -", &["0g"]),
    ("feed 1", "f0", "ok 1 -", &["g0"]),
    ("feed 1", "ff", "ok 1 -", &["FF"]),
    // The count of a draw.
    ("draw 2", "0000", "ok 2 -", COUNTS),
    ("draw 1", "00ff", "no 17 -", &["00FF"]),
    ("draw 1", "03ff", "no 17 -", &["03fg"]),
    ("draw 1", "0400", "no 17 -", &["0401"]),
    ("draw 9", "0400", "no 11 -", &["0401"]),
    // The tag length is a byte of the field, in hex as all others, and no field of its own.
    ("open 2", TAGS_OF_16, "ok 3 -", LENGTH_BYTES),
    ("open 2", TAGS_OF_7, "no 21 -", &[NO_TAG_LENGTH]),
    ("open 2", "-", "no 2 -", &["--", "0", "- 10", "-10"]),
    // Calls that have no bytes.
    ("close 1", "-", "ok 1 -", &["00", "--", "0", "0000"]),
    ("sum 0", "-", "ok 2 -", &["00", "--", "0", "0000"]),
];

/// What is no count: too short or too long, more than 1,024, or with another sign.
const COUNTS: &[Text] = &[
    "-", "0", "00", "000", "00000", "0401", "0402", "0800", "1000", "4000", "8000", "ffff", "000g",
    "0x10", "+000", "-000", "000-", "000A", "00FF", "00000400",
];

const LENGTH_BYTES: &[Text] = &[
    NO_TAG_LENGTH,
    "000102030405060708090a0b0c0d0e0f 10",
    "000102030405060708090a0b0c0d0e0f 16",
    "000102030405060708090a0b0c0d0e0f,10",
    "000102030405060708090a0b0c0d0e0f0x10",
    "000102030405060708090a0b0c0d0e0f0E",
    "000102030405060708090a0b0c0d0e0f1g",
    "000102030405060708090a0b0c0d0e0f010",
    "000102030405060708090a0b0c0d0e0f-",
];

/// One digit, of two.
const NO_TAG_LENGTH: Text = "000102030405060708090a0b0c0d0e0f8";

fn of_a_field(&(call, field, answer, others): &Field) -> Vec<Pair> {
    let line = |field: &str| format!("{call} {field}");
    let beside = |other: &&str| pair(line(other), line(field), answer);
    others.iter().map(beside).collect()
}

/// A well-formed line, what it gives, and malformed lines beside it.
type Line = (Text, Text, &'static [Text]);

const LINES: [Line; 6] = [
    // A sum has the number 0; other calls may have numbers that are refused.
    ("sum 0 -", "ok 2 -", &["sum 1 -", "sum 4294967295 -"]),
    ("draw 0 0000", "no 11 -", &["draw 00 0000"]),
    ("feed 4294967295 -", "no 11 -", &["feed 4294967296 -"]),
    ("close 4294967295 -", "no 11 -", &["close 4294967296 -"]),
    ("open 4294967295 -", "no 1 -", &["open 4294967297 -"]),
    ("sum 0 -", "ok 2 -", NO_CALLS),
];

/// No line at all, the names again, and lines of other kinds.
const NO_CALLS: &[Text] = &[
    "",
    " ",
    "  ",
    "\t",
    "-",
    "\0",
    "call number bytes",
    "answer number bytes",
    "ok 1 -",
    "# a comment",
    "stop 4 -",
];

fn of_a_line(&(line, answer, others): &Line) -> Vec<Pair> {
    let beside = |&other: &&str| pair(other, line, answer);
    others.iter().map(beside).collect()
}

/// Fields of 1,024 bytes that go on.
fn too_many_bytes() -> Vec<Pair> {
    let calls = [
        ("feed 1", "ok 33 -"),
        ("check 1", "no 4 -"),
        ("open 2", "no 2 -"),
        ("open 3", "no 2 -"),
    ];
    let of_a_call = |(call, answer)| {
        let line = format!("{call} {}", "a5".repeat(1_024));
        ["00", "0", "-", "g", " "].map(|more| pair(format!("{line}{more}"), line.clone(), answer))
    };
    calls.map(of_a_call).concat()
}
