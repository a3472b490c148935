//! The comparison: it reports nothing of programs that agree, reports the
//! first case in which two differ and makes it small, and takes a fault for a
//! difference even where both have it.

mod second_program;

use second::scenario::simulate;
use second_program::second_program;
use std::fs;
use std::os::unix::fs::PermissionsExt;
use std::path::{Path, PathBuf};
use std::process::Command;

/// A binary of the second program, as a word of the command.
fn program(name: &str) -> String {
    second_program(name).to_str().expect("a path that prints").to_string()
}

/// The exit status of a comparison, and what it wrote.
fn compare(words: &str, programs: [&str; 2]) -> (Option<i32>, String) {
    let output = Command::new(env!("CARGO_BIN_EXE_compare"))
        .args(words.split(' '))
        .args(programs)
        .output()
        .expect("the comparison starts");
    (output.status.code(), String::from_utf8_lossy(&output.stdout).into_owned())
}

/// A shell program of this name and these lines.
fn shell_program(name: &str, lines: &str) -> String {
    let path: PathBuf = Path::new(env!("CARGO_TARGET_TMPDIR")).join(name);
    fs::write(&path, format!("#!/bin/sh\n{lines}\n")).expect("the program is written");
    fs::set_permissions(&path, fs::Permissions::from_mode(0o755)).expect("it may be run");
    path.to_str().expect("a path that prints").to_string()
}

#[test]
fn a_program_does_not_differ_from_itself() {
    let (simulate, check_services) = (program("simulate"), program("check_services"));
    let (status, written) = compare("--kind scenarios --count 200", [&simulate; 2]);
    assert_eq!(status, Some(0));
    assert_eq!(written, "compared 200 cases (192 fixed), no difference\n");
    let (status, written) = compare("--kind folders --count 20", [&check_services; 2]);
    assert_eq!(status, Some(0));
    assert_eq!(written, "compared 20 cases (16 fixed), no difference\n");
}

#[test]
fn the_first_difference_is_reported_made_small_and_kept() {
    let right = program("simulate");
    let wrong =
        shell_program("wrong_number", &format!("'{right}' | sed 's/refused 21/refused 20/'"));
    let kept = Path::new(env!("CARGO_TARGET_TMPDIR")).join("kept");
    let words = format!("--kind scenarios --keep {}", kept.display());
    let (status, written) = compare(&words, [&right, &wrong]);
    assert_eq!(status, Some(1));
    assert!(written.starts_with("difference in fixed case: "), "{written}");
    assert!(written.contains("\nfirst: refused 21\nsecond: refused 20\n"), "{written}");
    assert!(written.ends_with(" fixed), a difference\n"), "{written}");
    let small = fs::read(kept.join("input")).expect("the small case is kept");
    assert!(simulate(&small).ends_with(b"\nrefused 21\n"));
    // A service, its text, a load and the end that is refused.
    assert!(small.iter().filter(|byte| **byte == b'\n').count() <= 6);
    let (status, written) = compare("--brief --kind scenarios", [&right, &wrong]);
    assert_eq!((status, written.lines().count()), (Some(1), 2));
}

#[test]
fn a_fault_of_both_is_a_difference() {
    let faulty = shell_program("faulty", "kill -SEGV $$");
    let (status, written) = compare("--kind sets --count 1", [&faulty, &faulty]);
    assert_eq!(status, Some(1));
    assert!(written.contains("(ended by signal 11)"), "{written}");
}

#[test]
fn a_comparison_that_cannot_be_made_has_a_status_of_its_own() {
    let simulate = program("simulate");
    assert_eq!(compare("--kind sets", [&simulate, "no-such-program"]).0, Some(2));
    assert_eq!(compare("--kind none", [&simulate; 2]).0, Some(2));
}
