//! The fixed cases of the column (W-201): texts that are refused at one byte,
//! or at one that is missing, with the line and the column of it.

use super::{given, scenario, FixedCase};

/// A text, and the line and column that it is refused with.
type Refused = (&'static [u8], u64, u64);

/// Texts by the number that they are refused with.
const TEXTS: [(u64, &[Refused]); 7] = [
    // The first bad byte.
    (
        6,
        &[
            (b"type=internal\n\n# a\x07b\n", 3, 4),
            (b"type=internal\n\x01", 2, 1),
            (b"type=internal\n\x01\n", 2, 1),
            (b"# \xf0\x9f\x98\x80\x7f\x00", 1, 7),
            (b"\r\n\t\x0b\x0c\r\x1f\n\x00", 2, 5),
            (b"depends-on=a\x00b", 1, 13),
        ],
    ),
    // In the name, at the sign, in the value.
    (
        7,
        &[
            (b"\t\t@include x", 1, 3),
            (b"\xa0type=internal", 1, 1),
            (b"type=internal\n \x85type=internal\n", 2, 2),
            (b":", 1, 1),
            (b"  bogus", 1, 8),
            (b"  bogus\n", 1, 8),
            (b"\x0b\x0cbogus\x0b", 1, 9),
            (b"type\r\n", 1, 6),
            (b"type \t\x0b\x0c\r", 1, 10),
            (b"\n\n#\n \ntype", 5, 5),
            (b"type=internal\nrestart", 2, 8),
            (b"type=internal\nrestart\n", 2, 8),
            (b"\trestart\t\tyes\n", 1, 11),
            (b"type\xa0=internal", 1, 5),
            (b"type \"internal", 1, 6),
            (b"command=\xc3\xa4\xff#\n", 1, 12),
            (b"command= \"a\tb\"\\\r#\x0bc\n", 1, 17),
            (b"type=internal\n\rcommand\r=\ra#", 2, 13),
        ],
    ),
    // The quote that opened the stretch that stays open.
    (
        8,
        &[
            (b"command= \"a\" \"b", 1, 14),
            (b"command= \"a\" \"b\n", 1, 14),
            (b"command=\"a\" \"b\" c\"d", 1, 18),
            (b"command=\"a\\\"b\"c\"", 1, 16),
            (b"command=\"\xe2\x82\xac\" \\\xff \"x", 1, 18),
            (b"type=internal\ncommand=a \"", 2, 11),
            (b"type=internal\ncommand=a \"\n", 2, 11),
            (b"type=internal\ncommand=a \"\r\n", 2, 11),
        ],
    ),
    // The backslash.
    (
        9,
        &[
            (b"command=\"a\" \\", 1, 13),
            (b"command=\xff\xfe\\", 1, 11),
            (b"command=\t\"\t\\\ntype=internal\n", 1, 12),
            (b"type=internal\ncommand=a \\", 2, 11),
            (b"type=internal\ncommand=a \\\n", 2, 11),
        ],
    ),
    // The first byte of the name.
    (
        10,
        &[
            (b"x = \"ab", 1, 1),
            (b"type=internal\n  x = \"ab", 2, 3),
            (b"type=internal\n  x = \"ab\n", 2, 3),
            (b"\x0coptions\x0b:", 1, 2),
            (b"\r\t. =\n", 1, 3),
        ],
    ),
    // The first byte after the sign that is no white space.
    (
        11,
        &[
            (b"type = \tprocess x", 1, 9),
            (b"type=", 1, 6),
            (b"type=  \r", 1, 9),
            (b"type=  \r\n", 1, 9),
            (b"\x0b\x0ctype\x0c\x0b=\x0b\x0c\x0c\n", 1, 13),
            (b"restart= # yes", 1, 10),
            (b"command=\t# a\n", 1, 10),
            (b"type=\\ process", 1, 6),
            (b"type= \" process\"", 1, 7),
            (b"type=\xffinternal", 1, 6),
            (b"type=internal\nrestart=", 2, 9),
            (b"type=internal\nrestart=\n", 2, 9),
            (b"\rtype=internal\r\n\rstart-timeout\r=\r1 2\r\n", 2, 18),
        ],
    ),
    // The line of the property's name, column 1.
    (
        15,
        &[
            (b"type=internal\n   depends-on = clock", 2, 1),
            (b"\twaits-for:\tclock\ntype=internal\n", 1, 1),
            (b"type=internal\ndepends-ms=clock\nrestart=no\n", 2, 1),
        ],
    ),
];

/// The load of one service with this text.
fn loaded(text: impl AsRef<[u8]>) -> Vec<u8> {
    [&given("a", text), &b"load 0\n"[..]].concat()
}

fn refused(name: &str, text: &[u8], number: u64, line: u64, column: u64) -> FixedCase {
    let answer = format!("refused {number} service 0 line {line} column {column}\n");
    scenario(&format!("the column: {name}"), &loaded(text), &answer)
}

pub fn columns() -> Vec<FixedCase> {
    let mut cases = Vec::new();
    for (number, texts) in TEXTS {
        for (text, line, column) in texts {
            cases.push(refused(&text.escape_ascii().to_string(), text, number, *line, *column));
        }
    }
    cases.extend(seventeenth_dependencies());
    cases.extend(long_lines());
    cases.push(scenario(
        "the column: a quote in a comment opens nothing",
        "service a\n|type=process\n|command = \"a\" #x \"b\nload 2\n",
        "0 a process\nok 1\n",
    ));
    cases.push(scenario(
        "the column: a line of a text in two lines of the scenario",
        "service a\n!command\n|=a#\nload 0\n",
        "refused 7 service 0 line 1 column 10\n",
    ));
    cases
}

/// A 17th dependency after 16 lines of one each: 12, at its name.
fn seventeenth_dependencies() -> Vec<FixedCase> {
    let sixteen: String = (0..16).map(|number| format!("waits-for=d{number}\n")).collect();
    let last = format!("{sixteen}\twaits-for : \u{b}d16 # last");
    let not_last = format!("{sixteen}\ndepends-on=\"d0\"\n\n");
    vec![
        refused("a 17th dependency on the last line", last.as_bytes(), 12, 17, 15),
        refused("a 17th dependency of another kind", not_last.as_bytes(), 12, 18, 12),
    ]
}

/// Lines that fill a text of 4,096 bytes, or nearly.
fn long_lines() -> Vec<FixedCase> {
    let bad_byte = format!("#{}\0", "x".repeat(4_094));
    let no_sign = format!("{}type", "\t".repeat(4_092));
    let open_quote = format!("command={}\"", "a ".repeat(2_000));
    let backslash = format!("command={}\\", "\\\"".repeat(2_000));
    let unknown = format!("{}x=\n", " ".repeat(4_000));
    let no_value = format!("type={}", " ".repeat(4_091));
    vec![
        refused("a bad byte that is the 4,096th", bad_byte.as_bytes(), 6, 1, 4_096),
        refused("no sign after 4,096 bytes", no_sign.as_bytes(), 7, 1, 4_097),
        refused("a quote after 4,008 bytes", open_quote.as_bytes(), 8, 1, 4_009),
        refused("a backslash after 4,008 bytes", backslash.as_bytes(), 9, 1, 4_009),
        refused("a name after 4,000 bytes", unknown.as_bytes(), 10, 1, 4_001),
        refused("no value after 4,096 bytes", no_value.as_bytes(), 11, 1, 4_097),
    ]
}
