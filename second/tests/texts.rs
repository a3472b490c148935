//! Texts and their faults: the examples of paper 01 and of the readings.

use second::engine::Signal;
use second::text::{read_text, read_value, time, Description, LineFault};

/// The number, line and column that a text is refused with.
fn refusal_of(text: &str) -> (u64, u64, u64) {
    let fault = read_text(text.as_bytes()).expect_err(text);
    (fault.number, fault.line, fault.column)
}

fn read(text: &str) -> Description {
    read_text(text.as_bytes()).expect(text)
}

fn tokens(value: &str) -> Vec<String> {
    let tokens = read_value(value.as_bytes(), 0).expect(value);
    tokens.into_iter().map(|token| String::from_utf8(token).expect("text")).collect()
}

#[test]
fn times_are_held_in_units_of_a_tenth_of_a_millisecond() {
    for (word, units) in [
        ("0.2", 2_000),
        ("86400", 864_000_000),
        ("000005.5000", 55_000),
        ("086400", 864_000_000),
        ("86400.0000", 864_000_000),
        ("0", 0),
        ("0.0001", 1),
    ] {
        assert_eq!(time(word.as_bytes()), Ok(units), "{word}");
    }
    for word in ["86400.0001", ".5", "5.", "0.00001", "0086400", "5.00000", "", ".", "1.2.3", "+1"]
    {
        assert_eq!(time(word.as_bytes()), Err(11), "{word}");
    }
}

#[test]
fn values_are_split_and_refused_from_the_left() {
    assert_eq!(tokens("a  b # c"), ["a", "b"]);
    assert_eq!(tokens("\"a  b\"c"), ["a  bc"]);
    assert_eq!(tokens("a\\ b"), ["a b"]);
    assert_eq!(tokens("# all comment \" \\"), Vec::<String>::new());
    assert_eq!(tokens("a \"\" b"), ["a", "", "b"]);
    assert_eq!(tokens("a\\\r"), ["a\r"]);
    for (value, number, place) in [
        ("a#b", 7, 1),
        ("\"\"#", 7, 2),
        ("a\\ #", 7, 3),
        ("\\##", 7, 2),
        ("\"a\\", 9, 2),
        ("a#\\", 7, 1),
        ("\"a#", 8, 0),
        ("\"", 8, 0),
        ("\\", 9, 0),
        ("\"a\" \"b", 8, 4),
        ("\"a\\\"b\"\"", 8, 6),
    ] {
        let fault = LineFault { number, place };
        assert_eq!(read_value(value.as_bytes(), 0), Err(fault), "{value}");
        let line = format!("type={value}");
        let fault = LineFault { number, place: place + 5 };
        assert_eq!(read_value(line.as_bytes(), 5), Err(fault), "{line}");
    }
}

#[test]
fn faults_of_a_line_come_in_the_stated_order() {
    for (text, number, line, column) in [
        ("type=internal\n\u{1}", 6, 2, 1),
        ("# comment \u{7f}\nbogus", 6, 1, 11),
        ("Type=internal", 7, 1, 1),
        ("type2=internal", 7, 1, 5),
        ("command +=a", 7, 1, 9),
        ("@include x", 7, 1, 1),
        ("depends on: a", 7, 1, 9),
        ("bogus", 7, 1, 6),
        ("=a", 7, 1, 1),
        ("depends-on.d: a", 10, 1, 1),
        ("options=\"", 10, 1, 1),
        (".=#\\", 10, 1, 1),
        ("type=process \"\"", 11, 1, 6),
        ("type=", 11, 1, 6),
        ("type=\"\"", 11, 1, 6),
        ("type=bgprocess", 11, 1, 6),
        ("restart=Yes", 11, 1, 9),
        ("restart=on-failure", 11, 1, 9),
        ("term-signal=SIGTERM", 11, 1, 13),
        ("smooth-recovery=yes", 11, 1, 17),
        ("command=\"\" a", 11, 1, 9),
        ("command=", 11, 1, 9),
        ("restart-limit-count=000003", 11, 1, 21),
        ("restart-limit-count=65536", 11, 1, 21),
        ("depends-on=a/b", 11, 1, 12),
        ("", 13, 0, 0),
        ("command=a\n", 13, 0, 0),
        ("type=process\n", 14, 0, 0),
        ("type=scripted\nstop-command=a", 14, 0, 0),
        ("type=wrong\ntype=internal\n", 11, 1, 6),
    ] {
        assert_eq!(refusal_of(text), (number, line, column), "{text:?}");
    }
}

#[test]
fn a_column_counts_the_bytes_of_its_line() {
    for (text, number, line, column) in [
        // White space of every kind is one byte.
        ("type = \tprocess x", 11, 1, 9),
        ("\t\u{b}\u{c}\r=", 7, 1, 5),
        // So is each byte of a longer character.
        ("command=\u{e4}\u{20ac}\u{1f600}#", 7, 1, 18),
        ("command=\"\u{e4}\" \"\u{e4}", 8, 1, 14),
        // It begins again at each line.
        ("type=internal\n\n  bogus=\n", 10, 3, 3),
        ("type=internal\r\nrestart = # yes\r\n", 11, 2, 11),
        // A missing byte stands past its line, with its last white space.
        ("type", 7, 1, 5),
        ("type \r\n", 7, 1, 7),
        ("type=\t\r\ntype=internal", 11, 1, 8),
        ("type=internal\ntype=", 11, 2, 6),
    ] {
        assert_eq!(refusal_of(text), (number, line, column), "{text:?}");
    }
}

#[test]
fn a_17th_distinct_dependency_is_refused_and_a_repeat_is_not() {
    let mut text = String::from("type=internal\n");
    for dependency in 0..16 {
        let kind = ["depends-on", "depends-ms", "waits-for"][dependency % 3];
        text.push_str(&format!("{kind}: d{dependency}\n"));
    }
    text.push_str("depends-on: d0\n");
    assert_eq!(read(&text).dependencies.len(), 16);
    text.push_str("depends-ms: d0\n");
    assert_eq!(refusal_of(&text), (12, 19, 13));
    text.push_str("waits-for=\n");
    assert_eq!(refusal_of(&text), (12, 19, 13));
}

#[test]
fn a_later_setting_replaces_an_earlier_one_and_quotes_work_everywhere() {
    let text = "type=process\n\ttype : \"int\"ernal # comment\nterm-signal=HUP\n\
                term-signal = US\\R2\nrestart=true\nrestart=false\nrestart-limit-count=00003\n";
    let description = read(text);
    assert_eq!(description.service_type.map(|it| it.word()), Some("internal"));
    assert_eq!(description.term_signal, Signal::Usr2);
    assert!(!description.restart);
    assert_eq!(description.restart_limit_count, 3);
}
