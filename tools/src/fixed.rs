//! The fixed cases that every comparison begins with, each with the answer
//! that paper 01 gives: its worked examples, its limits, and one case for each
//! of its readings that look right and are wrong.

mod columns;

use crate::case::{Case, Entry, Folder};

pub struct FixedCase {
    pub name: String,
    pub case: Case,
    pub expected: Vec<u8>,
}

fn scenario(name: &str, input: &(impl AsRef<[u8]> + ?Sized), expected: &str) -> FixedCase {
    FixedCase {
        name: name.to_string(),
        case: Case::Scenario(input.as_ref().to_vec()),
        expected: expected.as_bytes().to_vec(),
    }
}

fn folder(name: &str, input: &str, entries: Vec<(&str, Entry)>, expected: &str) -> FixedCase {
    let entries =
        entries.into_iter().map(|(file, entry)| (file.as_bytes().to_vec(), entry)).collect();
    FixedCase {
        name: name.to_string(),
        case: Case::Folder(Folder { input: input.as_bytes().to_vec(), entries }),
        expected: expected.as_bytes().to_vec(),
    }
}

/// Every fixed case, scenarios first.
pub fn fixed_cases() -> Vec<FixedCase> {
    let mut cases = vec![
        the_pair(),
        lone_reader_at_40_000(),
        lone_reader_at_100_000(),
        reader_again_while_averager_lives(),
        start_timeout_from_launch(),
        restart_after_a_users_stop(),
        dependency_released_too_early(),
        closing_dependency_taken_as_up(),
        times(),
        values(),
        lent_positions(),
        lent_room(),
        bad_lines(),
        input_is_cut(),
    ];
    cases.push(list_24());
    cases.push(good_lines());
    cases.extend(refused_lines());
    cases.extend(columns::columns());
    cases.extend(orders());
    cases.extend(text_limit_scenarios());
    cases.extend(service_limit_scenarios());
    cases.extend(folder_cases());
    cases
}

const PAIR: &str = "\
service reader
|type=process
|command=/bin/reader
|restart=yes
service averager
|type=process
|command=/bin/averager
|restart=yes
|depends-on: reader
load 64
";

const PAIR_LOADED: &str = "0 reader process\n1 averager process\nok 2\n";

const PAIR_UP: &str = "start 1\nrun\n";

const PAIR_UP_ANSWER: &str = "ok\nrun 4; moved 1; moved 0; launch 0; launch 1\n";

const LONE_READER: &str = "\
service reader
|type=process
|command=/bin/reader
|restart=yes
load 64
start 0
run
";

const LONE_READER_UP: &str = "0 reader process\nok 1\nok\nrun 2; moved 0; launch 0\n";

fn the_pair() -> FixedCase {
    let calls = "start 1\nnext\nnext\nnext\nnext\nnext\nclock 50000\nend 0 bad\nnext\nnext\n\
                 next\nend 1 good\nnext\nnext\nnext\nnext\nnext\nnext\n";
    let answers = "ok\nmoved 1\nmoved 0\nlaunch 0\nlaunch 1\nquiet\nok\nok\nmoved 1\n\
                   signal 1 TERM\nquiet\nok\nmoved 0\nmoved 1\nmoved 0\nlaunch 0\nlaunch 1\n\
                   quiet\n";
    scenario("the pair", &format!("{PAIR}{calls}"), &format!("{PAIR_LOADED}{answers}"))
}

fn lone_reader_falls(name: &str, fourth: u64, last: &str) -> FixedCase {
    let mut calls = String::new();
    let mut answers = String::new();
    for time in [10_000, 20_000, 30_000] {
        calls.push_str(&format!("clock {time}\nend 0 bad\nrun\n"));
        answers.push_str("ok\nok\nrun 3; moved 0; moved 0; launch 0\n");
    }
    calls.push_str(&format!("clock {fourth}\nend 0 bad\nrun\nstate\n"));
    answers.push_str(&format!("ok\nok\n{last}"));
    scenario(name, &format!("{LONE_READER}{calls}"), &format!("{LONE_READER_UP}{answers}"))
}

fn lone_reader_at_40_000() -> FixedCase {
    lone_reader_falls(
        "the lone reader, its fourth fall at 40,000",
        40_000,
        "run 1; moved 0\nclock 40000\n0 down wanted=0 aside=1 live=0 cause=none deadline=none \
         killed=0 not-before=22000 last-launch=30000 window-start=0 restarts=3\n",
    )
}

fn lone_reader_at_100_000() -> FixedCase {
    lone_reader_falls(
        "the lone reader, its fourth fall at 100,000",
        100_000,
        "run 3; moved 0; moved 0; launch 0\nclock 100000\n0 up wanted=1 aside=0 live=1 \
         cause=none deadline=none killed=0 not-before=32000 last-launch=100000 \
         window-start=100000 restarts=1\n",
    )
}

fn reader_again_while_averager_lives() -> FixedCase {
    scenario(
        "wrong reading: launching the reader again while the averager lives",
        &format!("{PAIR}{PAIR_UP}clock 50000\nend 0 bad\nrun\nnext\nclock 140000\nrun\n"),
        &format!(
            "{PAIR_LOADED}{PAIR_UP_ANSWER}ok\nok\nrun 2; moved 1; signal 1 TERM\nquiet\nok\n\
             run 0\n"
        ),
    )
}

fn start_timeout_from_launch() -> FixedCase {
    scenario(
        "wrong reading: the start timeout from when dependencies stopped",
        "service first\n|type=scripted\n|command=first\n|start-timeout=60\n\
         service then\n|type=scripted\n|command=then\n|start-timeout=5\n|depends-on: first\n\
         load 64\nstart 1\nrun\nclock 100000\nrun\nend 0 good\nrun\nquery\nclock 149999\nrun\n\
         clock 150000\nrun\n",
        "0 first scripted\n1 then scripted\nok 2\nok\nrun 3; moved 1; moved 0; launch 0\nok\n\
         run 0\nok\nrun 1; launch 1\nat 150000\nok\nrun 0\nok\nrun 1; signal 1 INT\n",
    )
}

fn restart_after_a_users_stop() -> FixedCase {
    scenario(
        "wrong reading: restarting after a user's stop",
        &format!("{LONE_READER}clock 50000\nstop 0\nrun\nend 0 good\nrun\nclock 900000\nrun\n"),
        &format!("{LONE_READER_UP}ok\nok\nrun 1; signal 0 TERM\nok\nrun 0\nok\nrun 0\n"),
    )
}

fn dependency_released_too_early() -> FixedCase {
    scenario(
        "wrong reading: releasing a dependency before its fallen dependent wakes",
        &format!("{PAIR}{PAIR_UP}clock 50000\nend 1 bad\nrun\n"),
        &format!("{PAIR_LOADED}{PAIR_UP_ANSWER}ok\nok\nrun 3; moved 1; moved 1; launch 1\n"),
    )
}

fn closing_dependency_taken_as_up() -> FixedCase {
    scenario(
        "wrong reading: treating a closing dependency as up",
        &format!("{PAIR}{PAIR_UP}clock 1000\nend 1 bad\nrun\nstop 0\nclock 2000\nnext\n"),
        &format!(
            "{PAIR_LOADED}{PAIR_UP_ANSWER}ok\nok\nrun 2; moved 1; moved 1\nok\nok\n\
             signal 0 TERM\n"
        ),
    )
}

fn times() -> FixedCase {
    scenario(
        "good times",
        "service a\n|type=internal\n|start-timeout=86400\n|restart-delay=0.2\nload 0\nshow\n",
        "0 a internal\nok 1\n0 type=internal restart=no restart-delay=2000 \
         restart-limit-interval=100000 restart-limit-count=3 start-timeout=864000000 \
         stop-timeout=100000 term-signal=TERM depends-on= depends-ms= waits-for= command=0 \
         stop-command=0\ntokens -\n",
    )
}

/// Single lines, each the first of a text, by the number they are refused with
/// and the column.
fn refused_lines() -> Vec<FixedCase> {
    const LINES: [(u64, &[(&str, u64)]); 6] = [
        (
            6,
            &[
                ("\u{0}", 1),
                ("# \u{8}", 3),
                ("type=\"\u{e}\"", 7),
                ("\u{1f}", 1),
                ("command=a \u{7f}", 11),
            ],
        ),
        (
            7,
            &[
                ("Type=process", 1),
                ("type2=process", 5),
                ("command +=a", 9),
                ("@include x", 1),
                ("depends on: a", 9),
                ("bogus", 6),
                ("=a", 1),
                ("type_=a", 5),
                ("type", 5),
                ("type internal", 6),
                ("command=a#b", 10),
                ("command=\"\"#", 11),
                ("command=a\\ #", 12),
                ("command=\" \"#", 12),
                ("command=\\##", 11),
                ("command=a#\\", 10),
                ("type \\", 6),
                ("\"type\"=a", 1),
            ],
        ),
        (
            8,
            &[
                ("command=\"", 9),
                ("command=a \"b # c", 11),
                ("command=\"a\\\"", 9),
                ("restart-delay=\"1", 15),
            ],
        ),
        (
            9,
            &[
                ("command=\\", 9),
                ("command=\"a\\", 11),
                ("command=a\\\\\\", 12),
                ("type=process\\", 13),
            ],
        ),
        (
            10,
            &[
                ("depends-on.d: a", 1),
                ("options=", 1),
                (".=a", 1),
                ("-:", 1),
                ("typ=a", 1),
                ("types=a", 1),
                ("log-type=\"", 1),
            ],
        ),
        (
            11,
            &[
                ("type=", 6),
                ("type=# process", 6),
                ("type=\"\"", 6),
                ("type=process \"\"", 6),
                ("type=process process", 6),
                ("type=bgprocess", 6),
                ("type=triggered", 6),
                ("type=Process", 6),
                ("command=", 9),
                ("command=\"\"", 9),
                ("command=\"\" a", 9),
                ("stop-command=", 14),
                ("stop-command=\"\" a", 14),
                ("restart=Yes", 9),
                ("restart=on-failure", 9),
                ("restart=1", 9),
                ("smooth-recovery=yes", 17),
                ("smooth-recovery=true", 17),
                ("smooth-recovery=", 17),
                ("restart-delay=0086400", 15),
                ("restart-delay=5.00000", 15),
                ("restart-limit-interval=86401", 24),
                ("restart-limit-interval=-1", 24),
                ("start-timeout=1e3", 15),
                ("start-timeout=1.", 15),
                ("start-timeout=", 15),
                ("stop-timeout=+1", 14),
                ("stop-timeout=1 2", 14),
                ("restart-limit-count=65536", 21),
                ("restart-limit-count=000003", 21),
                ("restart-limit-count=1.0", 21),
                ("restart-limit-count=", 21),
                ("term-signal=SIGTERM", 13),
                ("term-signal=term", 13),
                ("term-signal=", 13),
                ("depends-on=", 12),
                ("depends-on=a/b", 12),
                ("depends-ms=a b", 12),
                ("waits-for=\"\"", 11),
                ("waits-for=nnnnnnnnnnnnnnnnnnnnnnnnnnnnnnnnn", 11),
                ("restart-delay=86400.0001", 15),
                ("restart-delay=.5", 15),
                ("restart-delay=5.", 15),
                ("restart-delay=0.00001", 15),
            ],
        ),
    ];
    let mut cases = Vec::new();
    for (number, lines) in LINES {
        for (line, column) in lines {
            let input = format!("service a\n|{line}\n|type=internal\nload 0\n");
            let refused = format!("refused {number} service 0 line 1 column {column}\n");
            cases.push(scenario(&format!("the line {}", line.escape_debug()), &input, &refused));
        }
    }
    cases
}

/// Lines of every good form; the last of each property stands.
fn good_lines() -> FixedCase {
    let input = "service a\n|# comment\n| \t\u{b}\u{c}\r\n|\n|type=process\n|\ttype : scripted\r\n\
                 |command=earlier\n\
                 |command=\"b c\"d \\# e\\\\ \"\" $x # \" \\\n|stop-command = a\\\r\r#x\n\
                 |restart=true\n|restart = no\n|restart= yes\n|smooth-recovery=no\n\
                 |smooth-recovery=false\n|restart-delay=000005.5000\n\
                 |restart-limit-interval=086400\n|start-timeout=\"86400\".0000\n\
                 |stop-timeout=0.0001\n|restart-limit-count=00003\n|restart-limit-count=65535\n\
                 |term-signal=none\n|term-signal=US\\R2\n!waits-for=b\nservice b\n\
                 !type=internal\nload 65536\nshow\n";
    scenario(
        "good lines",
        input,
        "0 a scripted\n1 b internal\nok 2\n\
         0 type=scripted restart=yes restart-delay=55000 restart-limit-interval=864000000 \
         restart-limit-count=65535 start-timeout=864000000 stop-timeout=1 term-signal=USR2 \
         depends-on= depends-ms= waits-for=1 command=5 stop-command=1\n\
         1 type=internal restart=no restart-delay=2000 restart-limit-interval=100000 \
         restart-limit-count=3 start-timeout=600000 stop-timeout=100000 term-signal=TERM \
         depends-on= depends-ms= waits-for= command=0 stop-command=0\n\
         tokens 622063640023006\
         55c0000247800610d00\n",
    )
}

/// Two faults each, and the one that paper 01's order puts first. In the
/// inputs, GOOD stands for a line that makes a text good.
fn orders() -> Vec<FixedCase> {
    let many = "service a/b\n".repeat(33);
    let lines = |count: u64| -> String {
        (0..count).map(|number| format!("|waits-for=d{number}\n")).collect()
    };
    let long = format!("!{}\n", "#".repeat(4_097));
    let cases: [(&str, &[&str], &str); 20] = [
        ("1 before 3", &[&many], "1 service 0 line 0 column 0"),
        ("4 before 3", &["service a\nservice a\nservice \n"], "4 service 1 line 0 column 0"),
        ("3 before 5", &["service a\n", &long, "service \n"], "3 service 1 line 0 column 0"),
        ("5 before 6", &["service a\n|\u{1}\nservice b\n", &long], "5 service 1 line 0 column 0"),
        ("6 before 7", &["service a\n|bogus\n|\n|# \u{7f}\n"], "6 service 0 line 3 column 3"),
        ("7 before 6", &["service a\n|bogus\nservice b\n|\u{1}\n"], "7 service 0 line 1 column 6"),
        (
            "14 before 6",
            &["service a\n|type=process\nservice b\n|\u{1}\n"],
            "14 service 0 line 0 column 0",
        ),
        ("13 before 14", &["service a\n|stop-command=x\n"], "13 service 0 line 0 column 0"),
        ("10 before 7, 8, 9", &["service a\n|options=a#\"\\\n"], "10 service 0 line 1 column 1"),
        ("7 before 9", &["service a\n|command=a#\\\n"], "7 service 0 line 1 column 10"),
        ("9 before 8", &["service a\n|command=\"a\\\n"], "9 service 0 line 1 column 11"),
        ("8 before 11", &["service a\n|type=\"a\n"], "8 service 0 line 1 column 6"),
        (
            "11 before 12",
            &["service a\n", &lines(16), "|waits-for=a/b\n"],
            "11 service 0 line 17 column 11",
        ),
        ("12 before 13", &["service a\n", &lines(17)], "12 service 0 line 17 column 11"),
        ("13 before 15", &["service a\n|waits-for=b\n"], "13 service 0 line 0 column 0"),
        (
            "7 before 15",
            &["service a\nGOOD\n|waits-for=c\nservice b\n|bogus\n"],
            "7 service 1 line 1 column 6",
        ),
        (
            "15 before 16",
            &["service a\nGOOD\n|depends-on=a\nservice b\nGOOD\n|depends-ms=c\n"],
            "15 service 1 line 2 column 1",
        ),
        (
            "15 by line, and a repeat has its first",
            &["service a\nGOOD\n|waits-for=c\n|depends-on=b\n|waits-for=c\n"],
            "15 service 0 line 2 column 1",
        ),
        (
            "16 before 25",
            &["service a\n|type=process\n|command=a\n|waits-for=a\n"],
            "16 service 0 line 0 column 0",
        ),
        (
            "16 names the lowest on a cycle",
            &[
                "service a\nGOOD\n|depends-on=b\nservice b\nGOOD\n|depends-ms=c\n",
                "service c\nGOOD\n|waits-for=b\n",
            ],
            "16 service 1 line 0 column 0",
        ),
    ];
    cases
        .into_iter()
        .map(|(name, services, refused)| {
            let services = services.concat().replace("GOOD", "|type=internal");
            let input = format!("{services}load 0\n");
            scenario(&format!("order: {name}"), &input, &format!("refused {refused}\n"))
        })
        .collect()
}

/// Each clause of list 24 just inside and just outside. `stop 99` is refused
/// with 20 where list 24 passes and with 24 where it does not, and never
/// changes the state. Services: 0 process, 1 scripted, 2 internal; 1 hard on 0.
fn list_24() -> FixedCase {
    let mut input = "service p\n|type=process\n|command=p\nservice s\n|type=scripted\n\
                     |command=s\n|depends-on=p\nservice i\n|type=internal\nload 4\nset clock 50\n"
        .to_string();
    let mut expected = "0 p process\n1 s scripted\n2 i internal\nok 3\nok\n".to_string();
    let probes: [(&[&str], u64); 69] = [
        (&["table count 32"], 20),
        (&["table count 33"], 24),
        (&["table count 18446744073709551615"], 24),
        (&["table count 3", "table 2 waits-for 3"], 20),
        (&["table 2 waits-for 4"], 24),
        (&["table 2 waits-for 8"], 24),
        (&["table 2 waits-for 9223372036854775808"], 24),
        (&["table 2 waits-for 0", "table 3 waits-for 8"], 20),
        (&["table 0 depends-ms 2"], 24),
        (&["table 0 depends-ms 4"], 20),
        (&["table 2 waits-for 2"], 24),
        (&["table 2 waits-for 0", "table 0 depends-ms 0"], 20),
        (&["table 0 restart-delay 864000000"], 20),
        (&["table 0 restart-delay 864000001"], 24),
        (&["table 0 restart-delay 0", "table 1 restart-limit-interval 864000000"], 20),
        (&["table 1 restart-limit-interval 864000001"], 24),
        (&["table 1 restart-limit-interval 0", "table 2 restart-limit-count 65535"], 20),
        (&["table 2 restart-limit-count 65536"], 24),
        (&["table 2 restart-limit-count 0", "table 2 start-timeout 864000000"], 20),
        (&["table 2 start-timeout 864000001"], 24),
        (&["table 2 start-timeout 0", "table 1 stop-timeout 864000000"], 20),
        (&["table 1 stop-timeout 864000001"], 24),
        (&["table 1 stop-timeout 0", "table 3 stop-timeout 864000001"], 20),
        (&["set clock 281474976710656"], 20),
        (&["set clock 281474976710657"], 24),
        (&["set clock 50", "set 0 last-launch 50"], 20),
        (&["set 0 last-launch 51"], 24),
        (&["set 0 last-launch 0", "set 1 window-start 50"], 20),
        (&["set 1 window-start 51"], 24),
        (&["set 1 window-start 0", "set 2 deadline 281475840710656"], 20),
        (&["set 2 deadline 281475840710657"], 24),
        (&["set 2 deadline none", "set 0 not-before 281475840710656"], 20),
        (&["set 0 not-before 281475840710657"], 24),
        (&["set 0 not-before 0", "set 1 restarts 65535"], 20),
        (&["set 1 restarts 65536"], 24),
        (&["set 1 restarts 0", "set 3 restarts 65536", "set 3 live 1"], 20),
        (&["set 0 live 1"], 24),
        (&["set 0 live 0", "set 0 cause user"], 24),
        (&["set 0 cause none", "set 0 phase waiting"], 20),
        (&["set 0 live 1"], 24),
        (&["set 0 live 0", "set 0 cause fell"], 24),
        (&["set 0 phase starting"], 24),
        (&["set 0 live 1"], 24),
        (&["set 0 phase up"], 20),
        (&["set 0 live 0"], 20),
        (&["set 0 cause none"], 24),
        (&["set 0 live 1"], 20),
        (&["set 0 phase ending"], 24),
        (&["set 0 cause released"], 20),
        (&["set 0 live 0"], 24),
        (&["set 0 phase down", "set 0 cause none"], 20),
        (&["set 1 phase starting"], 24),
        (&["set 1 live 1"], 20),
        (&["set 1 cause failed"], 20),
        (&["set 1 phase up"], 24),
        (&["set 1 live 0"], 20),
        (&["set 1 cause none"], 20),
        (&["set 1 phase ending"], 24),
        (&["set 1 live 1"], 24),
        (&["set 1 cause user"], 20),
        (&["set 1 phase down", "set 1 cause none", "set 1 live 0"], 20),
        (&["set 2 phase up"], 20),
        (&["set 2 cause fell"], 20),
        (&["set 2 live 1"], 24),
        (&["set 2 phase starting"], 24),
        (&["set 2 phase ending"], 20),
        (&["set 2 cause none"], 24),
        (&["set 2 phase down", "set 2 live 0"], 20),
        (&["set 2 wanted 1", "set 2 aside 1", "set 2 killed 1", "set 2 deadline 0"], 20),
    ];
    for (lines, number) in probes {
        for line in lines {
            input.push_str(&format!("{line}\n"));
            expected.push_str("ok\n");
        }
        input.push_str("stop 99\n");
        expected.push_str(&format!("refused {number}\n"));
    }
    scenario("list 24, each clause inside and outside", &input, &expected)
}

fn values() -> FixedCase {
    scenario(
        "values",
        "service a\n|type=process\n|command=a  b # c\nservice b\n|type=process\n\
         |command=\"a  b\"c\nservice c\n|type=process\n|command=a\\ b\nload 64\nshow\n\
         service d\n|type=process\n|command=a#b\nload 64\n",
        "0 a process\n1 b process\n2 c process\nok 3\n\
         0 type=process restart=no restart-delay=2000 restart-limit-interval=100000 \
         restart-limit-count=3 start-timeout=600000 stop-timeout=100000 term-signal=TERM \
         depends-on= depends-ms= waits-for= command=2 stop-command=0\n\
         1 type=process restart=no restart-delay=2000 restart-limit-interval=100000 \
         restart-limit-count=3 start-timeout=600000 stop-timeout=100000 term-signal=TERM \
         depends-on= depends-ms= waits-for= command=1 stop-command=0\n\
         2 type=process restart=no restart-delay=2000 restart-limit-interval=100000 \
         restart-limit-count=3 start-timeout=600000 stop-timeout=100000 term-signal=TERM \
         depends-on= depends-ms= waits-for= command=1 stop-command=0\n\
         tokens 61006200612020626300612062\
         00\nrefused 7 service 3 line 2 column 10\n",
    )
}

fn lent_positions() -> FixedCase {
    scenario(
        "lent positions: odd, falling, not at the end, none",
        "load 0 -\nload 0\nload 0 0\nload 0 0 0\nservice a\n|type=internal\nload 0\n\
         load 0 1 15\nload 0 1\nload 0 1 14\nload 0 1 16\nload 0 15 1\nload 0 -\nload 0 1 1 1 15\n\
         load 0 18446744073709551615 15\nshow\nservice a/b\nload 0 1\n",
        "ok 0\nok 0\nrefused 2 service 0 line 0 column 0\n\
         refused 3 service 0 line 0 column 0\n0 a internal\nok 1\n0 a internal\nok 1\n\
         refused 2 service 0 line 0 column 0\nrefused 2 service 0 line 0 column 0\n\
         refused 2 service 0 line 0 column 0\nrefused 2 service 0 line 0 column 0\n\
         refused 2 service 0 line 0 column 0\nrefused 3 service 1 line 0 column 0\n\
         refused 2 service 0 line 0 column 0\nbad line 16\n\
         refused 2 service 0 line 0 column 0\n",
    )
}

fn lent_room() -> FixedCase {
    scenario(
        "lent room: just enough and one too few",
        "service a\n|type=scripted\n|command=ab c\n|stop-command=d \"\"\nload 8\nload 7\nload 0\n",
        "0 a scripted\nok 1\nrefused 25 service 0 line 0 column 0\n\
         refused 25 service 0 line 0 column 0\n",
    )
}

fn bad_lines() -> FixedCase {
    scenario(
        "bad lines",
        "|x\n!x\nservice\nnext\nservice a\n|type=internal\nload\nload 65537\n\
         load 00000000000000000000\nload 000000000000000000000\nnext\r\nnext \n next\n\
         start  0\nstart 18446744073709551616\n\
         start 18446744073709551615\nrun 4\nrun 257 4\nrun 3 4\nrun 4 4\n% says nothing\n\n\
         set 32 live 0\nset 0 live 2\nset 0 live 00\nset 0 phase Up\nset 00 deadline 0\n\
         end 0 fine\nend 0 good\nquery\nclock 281474976710657\nclock 281474976710656\nclock 5\n",
        "bad line 1\nbad line 2\nbad line 3\nbad line 4\nbad line 7\nbad line 8\n\
         0 a internal\nok 1\nbad line 10\nbad line 11\nbad line 12\nbad line 13\nbad line 14\n\
         bad line 15\nrefused 20\nbad line 17\nbad line 18\nrefused 25\nrun 0\nbad line 23\n\
         bad line 24\nbad line 25\nbad line 26\nok\nbad line 28\nrefused 21\nnone\nrefused 23\n\
         ok\nrefused 22\n",
    )
}

/// The cut after 262,144 bytes falls into the time of a clock reading.
fn input_is_cut() -> FixedCase {
    let begin = "service a\n|type=internal\nload 0\n";
    let call = "clock 12345\nstate\n";
    let filling = second::scenario::INPUT_BYTES - begin.len() - "clock 12".len();
    let comment = format!("%{}\n", "-".repeat(filling - 2));
    let input = format!("{begin}{comment}{call}{call}");
    scenario("the input is cut at 262,144 bytes", &input, "0 a internal\nok 1\nok\n")
}

/// A text of internal type of exactly this many bytes, as scenario lines.
fn text_of(bytes: usize) -> String {
    let begin = "type=internal\n";
    format!("{begin}#{}", "x".repeat(bytes - begin.len() - 1))
}

/// A service as a scenario gives it.
fn given(name: &str, text: impl AsRef<[u8]>) -> Vec<u8> {
    let mut lines = format!("service {name}\n").into_bytes();
    for line in text.as_ref().split_inclusive(|byte| *byte == b'\n') {
        if line.ends_with(b"\n") {
            lines.extend([b"|", line].concat());
        } else {
            lines.extend([b"!", line, b"\n"].concat());
        }
    }
    lines
}

fn text_limit_scenarios() -> Vec<FixedCase> {
    let one = |bytes| [&given("a", text_of(bytes)), &b"load 0\n"[..]].concat();
    let mut eight = Vec::new();
    let mut loaded = String::new();
    for service in 0..8 {
        eight.extend(given(&format!("s{service}"), text_of(4_096)));
        loaded.push_str(&format!("{service} s{service} internal\n"));
    }
    let full = [&eight, &b"load 0\n!\n!x\nload 0\nservice last\nload 0\n"[..]].concat();
    loaded.push_str("ok 8\n");
    loaded.push_str("refused 5 service 7 line 0 column 0\n");
    loaded.push_str("refused 5 service 7 line 0 column 0\n");
    let beyond = [&eight, &b"service last\nload 0\n!#\nload 0\n"[..]].concat();
    vec![
        scenario("4,096 bytes", &one(4_096), "0 a internal\nok 1\n"),
        scenario("4,097 bytes", &one(4_097), "refused 5 service 0 line 0 column 0\n"),
        scenario("32,768 bytes in all, then a text too long", &full, &loaded),
        scenario(
            "32,769 bytes in all",
            &beyond,
            "refused 13 service 8 line 0 column 0\nrefused 5 service 8 line 0 column 0\n",
        ),
    ]
}

fn service_limit_scenarios() -> Vec<FixedCase> {
    let mut input = String::new();
    let mut loaded = String::new();
    for service in 0..32 {
        input.push_str(&format!("service s{service}\n|type=internal\n"));
        loaded.push_str(&format!("{service} s{service} internal\n"));
    }
    loaded.push_str("ok 32\n");
    let beyond = format!("{input}load 0\nservice s32\n|type=internal\nload 0\n");
    let refused = format!("{loaded}refused 1 service 0 line 0 column 0\n");
    vec![
        scenario("32 services", &format!("{input}load 0\n"), &loaded),
        scenario("33 services", &beyond, &refused),
    ]
}

const READER_FILE: &str = "type=process\ncommand=/bin/reader\nrestart=yes\n";
const AVERAGER_FILE: &str =
    "type=process\ncommand=/bin/averager\ndepends-on: reader\nrestart=yes\n";

fn file(text: &str) -> Entry {
    Entry::File(text.as_bytes().to_vec())
}

fn folder_cases() -> Vec<FixedCase> {
    let long = "x".repeat(33);
    let mut many = String::new();
    for service in 0..33 {
        many.push_str(&format!("s{service}\n"));
    }
    let mut full: Vec<(String, Entry)> = Vec::new();
    for service in 0..8 {
        full.push((format!("s{service}"), file(&text_of(4_096))));
    }
    let at_the_total: Vec<(&str, Entry)> =
        full.iter().map(|(name, entry)| (name.as_str(), entry.clone())).collect();
    let mut past_the_total = at_the_total.clone();
    past_the_total[0].1 = file(&text_of(4_097));
    let eight = "s0\ns1\ns2\ns3\ns4\ns5\ns6\ns7\n";
    vec![
        folder(
            "the pair in a folder",
            "reader\naverager\n",
            vec![("reader", file(READER_FILE)), ("averager", file(AVERAGER_FILE))],
            PAIR_LOADED,
        ),
        folder(
            "the pair with an absent clock",
            "reader\naverager",
            vec![
                ("reader", file(READER_FILE)),
                ("averager", file("type=process\ncommand=/bin/averager\ndepends-on: clock\n")),
            ],
            "refused 15 service 1 line 3 column 1\n",
        ),
        folder(
            "a refusal in the second file, at a `#`",
            "reader\naverager\n",
            vec![
                ("reader", file(READER_FILE)),
                ("averager", file("type=process\n\tcommand = /bin/averager#1\n")),
            ],
            "refused 7 service 1 line 2 column 25\n",
        ),
        folder(
            "a refusal at the end of a file without a last newline",
            "reader\n",
            vec![("reader", file("type=process\r\ncommand = \r"))],
            "refused 11 service 0 line 2 column 12\n",
        ),
        folder("no names", "", vec![], "ok 0\n"),
        folder("an empty name", "\n", vec![], "refused 3 service 0 line 0 column 0\n"),
        folder("a missing file", "reader\n", vec![], "unreadable 0\n"),
        folder(
            "a directory in place of a file",
            "reader\naverager\n",
            vec![("reader", file("bad")), ("averager", Entry::Directory)],
            "unreadable 1\n",
        ),
        folder("33 names", &many, vec![], "refused 1 service 0 line 0 column 0\n"),
        folder(
            "a long name",
            &format!("{long}y\n"),
            vec![],
            "refused 3 service 0 line 0 column 0\n",
        ),
        folder(
            "names are read from the first 65,536 bytes",
            &format!("{}\n{}", "x".repeat(65_536), "a\n".repeat(40)),
            vec![],
            "refused 3 service 0 line 0 column 0\n",
        ),
        folder("a repeated name", "a\nb\na\n", vec![], "refused 4 service 2 line 0 column 0\n"),
        folder(
            "a file of 4,096 bytes",
            "a\n",
            vec![("a", file(&text_of(4_096)))],
            "0 a internal\nok 1\n",
        ),
        folder(
            "a file of 4,097 bytes",
            "a\n",
            vec![("a", file(&text_of(4_097)))],
            "refused 5 service 0 line 0 column 0\n",
        ),
        folder(
            "texts of 32,768 bytes, and a missing file",
            &format!("{eight}missing\n"),
            at_the_total,
            "unreadable 8\n",
        ),
        folder(
            "texts that pass 32,768 bytes, and a missing file after",
            &format!("{eight}missing\n"),
            past_the_total,
            "refused 5 service 0 line 0 column 0\n",
        ),
    ]
}
