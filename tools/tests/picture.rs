//! The picture of a run: the stored pictures, that of the incident too, are what
//! is drawn today; nothing of a scenario is left out without a word; and what
//! is held back is marked where it is, and nowhere else.

mod second_program;

use second::scenario::{simulate, INPUT_BYTES};
use second_program::second_program;
use std::fs;
use std::path::Path;
use std::process::{Command, Output};
use tools::picture::{picture, Failure};

fn tried(scenario: &[u8]) -> Result<String, Failure> {
    picture(scenario, |input| Ok(simulate(input)))
}

fn drawn(scenario: impl AsRef<[u8]>) -> String {
    tried(scenario.as_ref()).expect("the scenario can be drawn")
}

/// Why a scenario cannot be drawn.
fn reasons(scenario: impl AsRef<[u8]>) -> Vec<String> {
    match tried(scenario.as_ref()) {
        Err(Failure::Scenario(reasons)) => reasons,
        other => panic!("not a fault of the scenario: {other:?}"),
    }
}

/// Where a picture is to look otherwise, `scripts/picture` makes it again.
#[test]
fn the_stored_pictures_are_what_is_drawn() {
    let incident = include_bytes!("../../examples/simulate/march-incident/input");
    assert_eq!(drawn(incident), include_str!("incident.svg"));
    assert_eq!(drawn(include_bytes!("every_mark")), include_str!("every_mark.svg"));
    assert_eq!(drawn(include_bytes!("two_loads")), include_str!("two_loads.svg"));
}

#[test]
fn every_mark_and_every_phase_is_in_a_stored_picture() {
    let picture = drawn(include_bytes!("every_mark"));
    let legend_begins = picture.find("aside: down").expect("there is a legend");
    let words = [
        "down",
        "aside",
        "waiting",
        "starting",
        "up",
        "closing",
        "ending",
        "start",
        "stop",
        "launch",
        "USR1",
        "INT",
        "KILL",
        "stop-command",
        "end good",
        "end bad",
        "0 s",
        "1.2345 s",
        "stop command held back: monitor lives",
    ];
    for word in words {
        assert!(picture[..legend_begins].contains(&format!(">{word}</text>")), "{word}");
    }
    for word in ["each column is a step, not a length of time", ">held back: no launch"] {
        assert!(picture[legend_begins..].contains(word), "{word}");
    }
}

// A reader, an averager that hard-depends on it, and a logger that does
// through the averager. START_ALL has launched all three.
const SET: &str = "service reader\n|type=process\n|command=reader\n\
    service averager\n|type=process\n|command=averager\n|depends-on:reader\n\
    service logger\n|type=process\n|command=logger\n|depends-on:averager\n|restart=yes\nload 99\n";
const START_ALL: &str = "start 2\nrun\n";

#[test]
fn a_run_is_drawn_action_by_action() {
    let in_one = format!("{SET}start 2\nrun 12 12\n");
    let one_by_one = format!("{SET}start 2\n{}", "next\n".repeat(8));
    assert_eq!(drawn(&in_one), drawn(one_by_one));
    // The legend has one more.
    assert_eq!(drawn(&in_one).matches(">launch</text>").count(), 3 + 1);
}

#[test]
fn lines_that_change_nothing_do_not_show() {
    let plain = format!("{SET}{START_ALL}clock 9\nend 0 bad\nrun\n");
    let with_more = plain.replace("clock 9\n", "% said\n\nshow\nquery\nclock 9\nstate\nnext\n");
    assert_eq!(drawn(plain), drawn(with_more));
}

#[test]
fn a_refusal_is_said_at_its_call() {
    let refused = drawn(
        "service a\n|type=internal\nload 9\nend 0 bad\nrun 3 4\nset 0 live 1\nnext\nrun\nquery\n",
    );
    let labels =
        ["end a bad: refused 21", "run 3 4: refused 25", "next: refused 24", "run: refused 24"];
    for label in labels.into_iter().chain(["query: refused 24"]) {
        assert_eq!(refused.matches(&format!(">{label}</text>")).count(), 1, "{label}");
    }
}

#[test]
fn places_that_the_table_takes_in_have_a_lane() {
    let more = drawn("service a\n|type=internal\nload 9\ntable count 3\nstart 2\nrun\n");
    assert_eq!(more.matches(">(no name)</text>").count(), 2);
    assert!(more.contains(">2, internal</text>"));
}

#[test]
fn bad_lines_are_said_and_nothing_is_drawn() {
    let scenario = format!("start 0\n{SET}strat 1\nrun\nstart  1\nclock 1\x07\nend reader bad\n");
    let expected = [
        "line 1: start 0: bad line",
        "line 15: strat 1: bad line",
        "line 17: start  1: bad line",
        "line 18: clock 1\\x07: bad line",
        "line 19: end reader bad: bad line",
    ];
    assert_eq!(reasons(scenario), expected);
    assert_eq!(reasons("run\n"), ["line 1: run: bad line"]);
    assert_eq!(reasons("|type=process\n"), ["line 1: |type=process: bad line"]);
    assert_eq!(reasons("% nothing\n"), ["no set is loaded"]);
}

#[test]
fn a_refused_load_is_said_as_it_is_answered() {
    let refused = "service a\n|type=process\nload 9\nstart 0\nrun\n";
    let said = "line 3: load 9: the load is refused: refused 14 service 0 line 0 column 0";
    assert_eq!(reasons(refused), [said]);
    // One that is accepted later does not help, and bad lines count again.
    let later = format!("{refused}|command=a\nload 9\nstrat 0\n");
    assert_eq!(reasons(later), [said, "line 8: strat 0: bad line"]);
}

#[test]
fn what_comes_before_a_second_load_is_counted() {
    let note = |scenario: &str| {
        let picture = drawn(scenario);
        let note = picture.lines().find(|line| line.contains("not drawn.</text>"));
        note.map(|line| line.split(['>', '<']).nth(2).expect("the words").to_string())
    };
    let said = |words: &str| Some(words.to_string());
    let once = "service a\n|type=internal\nload 9\n";
    assert_eq!(note(once), None);
    let again = format!("{once}load 9\n");
    assert_eq!(note(&again), said("The step before the load on line 4 is not drawn."));
    // The load, the start, two actions, a refused call; then the load once more.
    let more = format!("{once}start 0\nrun\nquery\nnext\nend 0 bad\nload 9\nload 9\nstop 0\n");
    assert_eq!(note(&more), said("The 6 steps before the load on line 10 are not drawn."));
    assert_eq!(drawn(&more).matches(">start</text>").count(), 0);
    assert_eq!(drawn(&more).matches(">stop</text>").count(), 1);
}

#[test]
fn what_is_too_long_to_be_read_whole_is_said() {
    let long = format!("{SET}{}", "%\n".repeat(INPUT_BYTES / 2));
    let bytes = long.len();
    assert_eq!(reasons(long), [format!("the scenario has {bytes} bytes; simulate reads 262144")]);
    // Within the limit as it stands, but not with a state after each call.
    let long = format!("{SET}{}", "stop-all\n".repeat(20_000));
    let bytes = 20_000 * "stop-all\nstate\n".len() + SET.len() + "show\nstate\n".len();
    let expected =
        format!("the scenario with its steps taken apart has {bytes} bytes; simulate reads 262144");
    assert_eq!(reasons(long), [expected]);
}

/// What is held back, as a picture says it in words.
fn held(scenario: &str) -> Vec<String> {
    let picture = drawn(scenario);
    let bands = picture.matches(" held back: ").count();
    let said = picture.lines().filter(|line| line.contains(" is held back: "));
    let said: Vec<String> = said.map(|line| line.replace("</desc>", "")).collect();
    // Each is a sentence and a band; the legend has no blank before its words.
    assert_eq!(bands, 2 * said.len());
    said
}

#[test]
fn a_launch_is_held_back_while_a_dependent_lives() {
    let dead = format!("{SET}{START_ALL}clock 10000\nend 0 bad\nrun\n");
    let from = "From \"end reader bad\" at 1 s";
    let open = "and to the end of the picture";
    assert_eq!(
        held(&dead)[0],
        format!("{from} {open} a launch for reader is held back: averager, logger live.")
    );
    let done = format!("{dead}end 2 good\nrun\nclock 20000\nend 1 good\nrun\n");
    let expected = [
        format!(
            "{from} until \"end averager good\" at 2 s a launch for reader is held back: \
             averager, logger live."
        ),
        "From \"moved averager\" at 1 s until \"end logger good\" at 1 s a signal for averager is \
         held back: logger lives."
            .to_string(),
    ];
    assert_eq!(held(&done), expected);
}

#[test]
fn a_launch_that_is_asked_for_late_is_held_back_from_then_on() {
    let once = SET.replace("|restart=yes\n", "");
    let open = "and to the end of the picture a launch for reader is held back: averager";
    let started = held(&format!("{once}{START_ALL}stop-all\nend 0 bad\nstart 2\n"));
    let expected = format!("From \"start logger\" at 0 s {open}, logger live.");
    assert!(started.contains(&expected), "{started:?}");
    // The logger depends on the reader, but not hard; it waits for the launch.
    let soft = once.replace("depends-on:averager", "waits-for:reader");
    let awaited = held(&format!("{soft}start 1\nrun\nend 0 bad\nstart 2\nrun\n"));
    assert_eq!(awaited, [format!("From \"moved logger\" at 0 s {open} lives.")]);
}

#[test]
fn nothing_is_held_back_where_nothing_would_be_handed_out() {
    // All is up, and then one without dependents dies.
    assert_eq!(held(&format!("{SET}{START_ALL}end 2 bad\n")), Vec::<String>::new());
    // The reader is to stay down: the signals are held back, no launch is.
    let stopped = held(&format!("{SET}{START_ALL}stop-all\nend 0 bad\nrun\n"));
    assert_eq!(stopped.iter().filter(|words| words.contains("launch")).count(), 0);
    assert!(stopped[0].contains("until \"end reader bad\""), "{stopped:?}");
    assert!(stopped[0].contains(" a signal for reader is held back"), "{stopped:?}");
    // Nobody that is wanted comes back.
    let once = SET.replace("|restart=yes\n", "");
    let fallen = held(&format!("{once}{START_ALL}end 0 bad\nrun\n"));
    assert_eq!(fallen.iter().filter(|words| words.contains("launch")).count(), 0);
    let unwanted = held(&format!("{SET}{START_ALL}stop 2\nend 0 bad\nrun\n"));
    assert_eq!(unwanted.iter().filter(|words| words.contains("launch")).count(), 0);
    // The first fall is followed by a launch. The second one within the interval
    // sets the reader aside, and one after it does not.
    let limited = SET.replace("command=reader\n", "command=reader\n|restart-limit-count=1\n");
    let falls = "end 0 bad\nrun\nend 2 good\nrun\nend 1 good\nrun\n";
    let launches = |clock: u64| {
        let twice = format!("clock 50000\n{falls}clock {clock}\n{falls}");
        let said = held(&format!("{limited}{START_ALL}{twice}"));
        said.iter().filter(|words| words.contains("launch for reader")).count()
    };
    assert_eq!((launches(55_000), launches(150_000)), (1, 2));
    // No hard dependency, no holding back; the table says which are.
    let soft = SET.replace("depends-on", "waits-for");
    assert_eq!(held(&format!("{soft}{START_ALL}end 0 bad\nrun\n")), Vec::<String>::new());
    let cut = held(&format!("{SET}{START_ALL}table 1 depends-on 0\nend 0 bad\nrun\n"));
    assert_eq!(cut, Vec::<String>::new());
}

#[test]
fn answers_that_do_not_fit_are_said() {
    let scenario = b"service a\n|type=internal\nload 9\nstart 0\n";
    let answered = |answers: &[u8]| match picture(scenario, |_| Ok(answers.to_vec())) {
        Err(Failure::Program(why)) => why,
        other => panic!("not a fault of the program: {other:?}"),
    };
    assert_eq!(answered(b"0 a internal\nok 1\n"), "line 4 has no answer: start 0");
    assert_eq!(answered(b"0 a internal\nok 1\nok\nok\n"), "no line has the answer: ok");
}

/// The command on a scenario of these bytes.
fn command(name: &str, scenario: impl AsRef<[u8]>, simulate: &Path) -> Output {
    let path = Path::new(env!("CARGO_TARGET_TMPDIR")).join(name);
    fs::write(&path, scenario).expect("the scenario is written");
    let mut command = Command::new(env!("CARGO_BIN_EXE_picture"));
    command.arg(path).arg(simulate).output().expect("the command starts")
}

#[test]
fn the_command_says_what_is_wrong_by_its_status_and_on_standard_error() {
    let simulate = second_program("simulate");
    let good = command("good", SET, &simulate);
    assert_eq!((good.status.code(), good.stderr.len()), (Some(0), 0));
    assert_eq!(String::from_utf8_lossy(&good.stdout), drawn(SET));
    let bad = command("bad", format!("{SET}strat 1\nrun 1\n"), &simulate);
    assert_eq!((bad.status.code(), bad.stdout.len()), (Some(1), 0));
    let said = "picture: line 14: strat 1: bad line\npicture: line 15: run 1: bad line\n";
    assert_eq!(String::from_utf8_lossy(&bad.stderr), said);
    let none = command("none", SET, Path::new("no/such/program"));
    assert_eq!((none.status.code(), none.stdout.len()), (Some(2), 0));
    assert!(none.stderr.starts_with(b"picture: no/such/program: "));
    let usage = Command::new(env!("CARGO_BIN_EXE_picture")).output().expect("the command starts");
    assert_eq!(usage.status.code(), Some(2));
    assert_eq!(usage.stderr, b"usage: picture SCENARIO SIMULATE\n");
}
