//! The picture of a run: a run is taken apart into steps with states, and the
//! stored pictures, that of the README too, are what is drawn today.

use second::picture::{picture, steps_of};
use second::scenario::simulate;

fn drawn(scenario: &[u8]) -> String {
    let steps = steps_of(scenario);
    picture(&steps, &simulate(&steps)).expect("a set is loaded")
}

#[test]
fn a_run_is_taken_apart() {
    let steps = String::from_utf8(steps_of(b"service a\nload 9\nrun\n% run\nrun 4 4\n"));
    let each = "next\nstate\n".repeat(4);
    let expected = format!("service a\nload 9\nstate\n{each}% run\nrun 4 4\nstate\n");
    assert_eq!(steps.as_deref(), Ok(expected.as_str()));
}

/// Where a picture is to look otherwise, `scripts/picture` makes it anew.
#[test]
fn the_stored_pictures_are_what_is_drawn() {
    let incident = drawn(include_bytes!("../examples/incident"));
    assert_eq!(incident, include_str!("../../docs/incident.svg"));
    assert_eq!(drawn(include_bytes!("every_mark")), include_str!("every_mark.svg"));
}

#[test]
fn every_mark_and_every_phase_is_in_a_stored_picture() {
    let picture = drawn(include_bytes!("every_mark"));
    let legend_begins = picture.find("aside: down").expect("there is a legend");
    let words = [
        "down",
        "aside",
        "waiting",
        "starting",
        "up",
        "closing",
        "ending",
        "start",
        "stop",
        "launch",
        "USR1",
        "INT",
        "KILL",
        "stop-command",
        "end good",
        "end bad",
        "0 s",
        "1.2345 s",
    ];
    for word in words {
        assert!(picture[..legend_begins].contains(&format!(">{word}</text>")), "{word}");
    }
}

#[test]
fn a_refusal_is_said_at_its_call() {
    let scenario = b"service a&b\nservice a\n|type=internal\nload 9\n";
    assert_eq!(picture(scenario, &simulate(scenario)), Err("no set was loaded".into()));
    let refused =
        drawn(b"service a\n|type=internal\nload 9\nend 0 bad\nrun 3 4\nset 0 live 1\nnext\n");
    for label in ["end a bad: refused 21", "run 3 4: refused 25", "next: refused 24"] {
        assert!(refused.contains(&format!(">{label}</text>")), "{label}");
    }
}

#[test]
fn a_load_after_a_refused_one_is_drawn() {
    let at_once = drawn(b"service a\n|type=internal\nload 9\nstart 0\n");
    let then = drawn(b"service a\n!type=\nload 9\n|internal\nload 9\nstart 0\n");
    assert_eq!(then, at_once);
}

#[test]
fn answers_that_do_not_fit_are_said() {
    let scenario = b"service a\n|type=internal\nload 9\nstart 0\n";
    assert_eq!(
        picture(scenario, b"0 a internal\nok 1\n"),
        Err("line 4 has no answer: start 0".into())
    );
}
