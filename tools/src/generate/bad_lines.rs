//! Lines that are refused with one of the numbers 6 to 11, most often. They are
//! dressed: white space, long now and then, and tokens of bytes from 128 up
//! stand before the byte that decides, so that its column has to be counted.

use super::texts::white;
use crate::random::Random;
use second::text::is_bad_byte;

/// Malformed lines (7).
const MALFORMED: [&[u8]; 22] = [
    b"bogus",
    b"Type=process",
    b"type2=process",
    b"command +=a",
    b"@include x",
    b"depends on: a",
    b"=a",
    b"type",
    b"restart",
    b"depends-on",
    b".-",
    b"type process",
    b"command=a#b",
    b"command=\"\"#",
    b"command=a\\ #",
    b"type=process#",
    b"command=\"a\"#b",
    b"command=#\\ a#\\",
    b"\xffa=b",
    b"type\xa0=b",
    b"type_=a",
    b"command=a#\\",
];

/// A quote open at the line's end (8).
const OPEN_QUOTE: [&[u8]; 10] = [
    b"command=\"",
    b"type=\"process",
    b"command=a \"b # c",
    b"command=\"a\\\"",
    b"command=\"a#",
    b"depends-on=a\"",
    b"command=\"a\" \"b",
    b"type=\"\"\"\\\" a",
    b"command=a\"b\"c\"\\\"d",
    b"command=\\\" \"a\\\\",
];

/// A backslash at the line's end (9).
const LAST_BACKSLASH: [&[u8]; 7] = [
    b"command=\\",
    b"command=a b\\",
    b"command=\"a\\",
    b"type=process\\",
    b"command=a\\\\\\",
    b"restart-delay=\" \\",
    b"command=\"\\\"\" \\",
];

/// Properties that paper 01 does not list (10).
const UNKNOWN: [&[u8]; 9] = [
    b"depends-on.d: a",
    b"options=a",
    b".=a",
    b"-:",
    b"typ=process",
    b"types=process",
    b"log-type=\"",
    b"command-=#\\",
    b"pid-file = a#b",
];

/// Tokens with bytes from 128 up.
const HIGH_TOKENS: [&[u8]; 6] = [
    b"\x80",
    b"a\xc3\xa4b",
    b"\"\xe2\x82\xac\t#\"",
    b"\\\xff",
    b"\"\\\xa0\"\x85",
    b"\xf0\x9f\x98\x80\\ \xfe",
];

/// A line that gives this number, 6 to 11.
pub fn bad_line(random: &mut Random, number: u64) -> Vec<u8> {
    let line = match number {
        6 => with_bad_byte(random),
        7 if random.one_in(3) => changed_name(random),
        7 => random.pick(&MALFORMED).to_vec(),
        8 => random.pick(&OPEN_QUOTE).to_vec(),
        9 => random.pick(&LAST_BACKSLASH).to_vec(),
        10 if random.one_in(3) => changed_name(random),
        10 => random.pick(&UNKNOWN).to_vec(),
        _ => bad_value(random).as_bytes().to_vec(),
    };
    // The value of 7, 8 and 9 is read from the left, whatever it begins with.
    let token = if (7..=9).contains(&number) && random.one_in(3) {
        [random.pick(&HIGH_TOKENS), &white(random, 1)[..]].concat()
    } else {
        Vec::new()
    };
    dressed(random, &line, &token)
}

/// The line with white space before it and around its sign, or at its end where
/// it has none; and with these bytes before its value.
pub fn dressed(random: &mut Random, line: &[u8], before_value: &[u8]) -> Vec<u8> {
    let sign = line.iter().position(|byte| matches!(byte, b'=' | b':')).unwrap_or(line.len());
    let (name, rest) = line.split_at(sign);
    let mut dressed = Vec::new();
    if random.one_in(8) {
        dressed.extend(vec![*random.pick(b" \t"); random.between(250, 300) as usize]);
    }
    dressed.extend(any_white(random));
    dressed.extend_from_slice(name);
    dressed.extend(any_white(random));
    if let Some((sign, value)) = rest.split_first() {
        dressed.push(*sign);
        dressed.extend(any_white(random));
        dressed.extend_from_slice(before_value);
        dressed.extend_from_slice(value);
    }
    if rest.len() < 2 && random.one_in(3) {
        // The line misses its sign or its value; it may still have this.
        dressed.push(b'\r');
    }
    dressed
}

/// No white space, or some.
fn any_white(random: &mut Random) -> Vec<u8> {
    let least = if random.one_in(2) { 0 } else { random.between(1, 3) };
    white(random, least)
}

/// A bad byte in a comment, in a value or for itself (6).
fn with_bad_byte(random: &mut Random) -> Vec<u8> {
    let mut line = random.pick(&[&b"# "[..], b"command=a ", b"bogus", b""]).to_vec();
    if random.one_in(2) {
        line.extend(*random.pick(&HIGH_TOKENS));
    }
    line.extend(any_white(random));
    line.push(bad_byte(random));
    line.extend(*random.pick(&[&b""[..], b" a", b"\x00"]));
    line
}

pub fn bad_byte(random: &mut Random) -> u8 {
    let bad: Vec<u8> = (0..=255).filter(|byte| is_bad_byte(*byte)).collect();
    *random.pick(&bad)
}

const PROPERTIES: [&str; 14] = [
    "type",
    "command",
    "stop-command",
    "restart",
    "smooth-recovery",
    "restart-delay",
    "restart-limit-interval",
    "restart-limit-count",
    "start-timeout",
    "stop-timeout",
    "depends-on",
    "depends-ms",
    "waits-for",
    "term-signal",
];

/// A line whose property name has a byte too many, too few, or another.
fn changed_name(random: &mut Random) -> Vec<u8> {
    const BYTES: &[u8] = b"abyz-._`{/,+0Z \"#\\\x80";
    let mut line = random.pick(&PROPERTIES).as_bytes().to_vec();
    let at = random.below(line.len() as u64) as usize;
    match random.below(3) {
        0 => {
            line.remove(at);
        }
        1 => line[at] = *random.pick(BYTES),
        _ => line.insert(at, *random.pick(BYTES)),
    }
    line.extend_from_slice(b"=5");
    line
}

/// Any property with a value of any property, or a number of any form.
fn any_value(random: &mut Random) -> String {
    const WORDS: [&str; 22] = [
        "process", "scripted", "internal", "yes", "true", "no", "false", "none", "HUP", "INT",
        "TERM", "QUIT", "USR1", "USR2", "KILL", "0", "65535", "65536", "99999", "86400", "s0",
        "\"\"",
    ];
    let property = random.pick(&PROPERTIES);
    if random.one_in(2) {
        return format!("{property}={}", random.pick(&WORDS));
    }
    let mut digits = |most: u64| -> String {
        (0..random.below(most + 1)).map(|_| char::from(b'0' + random.below(10) as u8)).collect()
    };
    let (whole, fraction) = (digits(7), digits(6));
    let point = *random.pick(&[".", "", "", "..", ","]);
    format!("{property}={whole}{point}{fraction}")
}

/// The properties whose value is a time, and values outside its rule (11).
const TIMED: [&str; 4] =
    ["restart-delay", "restart-limit-interval", "start-timeout", "stop-timeout"];
const BAD_TIMES: [&str; 13] = [
    "86400.0001",
    ".5",
    "5.",
    "0.00001",
    "0086400",
    "5.00000",
    "86401",
    "1e3",
    "-1",
    "+1",
    "1 2",
    "",
    "999999",
];

/// Values outside the rules of the other properties (11).
const BAD_VALUES: [&str; 34] = [
    "type=bgprocess",
    "type=Process",
    "type=",
    "type=process \"\"",
    "type=\"\"",
    "command=",
    "command=\"\" a",
    "command= # a",
    "stop-command=",
    "stop-command=\"\"",
    "restart=Yes",
    "restart=on-failure",
    "restart=1",
    "restart=",
    "smooth-recovery=yes",
    "smooth-recovery=true",
    "restart-limit-count=65536",
    "restart-limit-count=000003",
    "restart-limit-count=-1",
    "restart-limit-count=1.0",
    "term-signal=SIGTERM",
    "term-signal=term",
    "term-signal=",
    "depends-on=",
    "depends-ms=a/b",
    "waits-for=a b",
    "depends-on=nnnnnnnnnnnnnnnnnnnnnnnnnnnnnnnnn",
    "restart=# yes",
    "type=#\"",
    "type=\u{e4}",
    "restart=\u{20ac} yes",
    "depends-on=\u{df}",
    "term-signal=\u{e4} # TERM",
    "waits-for=\\ a",
];

/// A line whose value is outside its property's rule, or any value.
fn bad_value(random: &mut Random) -> String {
    if random.one_in(3) {
        return any_value(random);
    }
    if random.one_in(4) {
        let value = *random.pick(&["", "", "# a", "\u{e4} a"]);
        return format!("{}={value}", random.pick(&PROPERTIES));
    }
    if random.one_in(3) {
        return format!("{}={}", random.pick(&TIMED), random.pick(&BAD_TIMES));
    }
    random.pick(&BAD_VALUES).to_string()
}
