//! The picture of a run. `picture steps SCENARIO` writes the scenario with a
//! `state` after each call and each run taken apart; `picture draw STEPS
//! ANSWERS` writes the SVG of such a scenario and of what `simulate` answered
//! to it.

use second::picture::{picture, steps_of};
use std::fs;
use std::io::{self, Write};
use std::process::exit;

fn fail(why: &str) -> ! {
    eprintln!("{why}");
    exit(2)
}

fn read(name: &str) -> Vec<u8> {
    fs::read(name).unwrap_or_else(|error| fail(&format!("{name}: {error}")))
}

fn main() {
    let words: Vec<String> = std::env::args().skip(1).collect();
    let words: Vec<&str> = words.iter().map(String::as_str).collect();
    let written = match words.as_slice() {
        ["steps", scenario] => steps_of(&read(scenario)),
        ["draw", steps, answers] => picture(&read(steps), &read(answers))
            .unwrap_or_else(|why| fail(&format!("picture: {why}")))
            .into_bytes(),
        _ => fail("usage: picture steps SCENARIO\n       picture draw STEPS ANSWERS"),
    };
    if io::stdout().write_all(&written).is_err() {
        exit(1);
    }
}
