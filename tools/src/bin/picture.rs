//! The picture of a run: `picture SCENARIO SIMULATE` writes the SVG of a
//! scenario, as the program SIMULATE answers it. The exit status is 1 where
//! the scenario cannot be drawn, and 2 where the picture could not be tried.

use std::fs;
use std::io::{self, Write};
use std::process::{exit, Command, Stdio};
use std::thread;
use tools::picture::{picture, Failure};

fn fail(status: i32, reasons: &[String]) -> ! {
    for why in reasons {
        eprintln!("picture: {why}");
    }
    exit(status)
}

/// What the program writes for this standard input.
fn answers(program: &str, input: &[u8]) -> Result<Vec<u8>, String> {
    let why = |error: io::Error| format!("{program}: {error}");
    let mut child =
        Command::new(program).stdin(Stdio::piped()).stdout(Stdio::piped()).spawn().map_err(why)?;
    let mut standard_input = child.stdin.take();
    let output = thread::scope(|scope| {
        // A program may write before it has read all: neither waits for long.
        scope.spawn(move || standard_input.as_mut().map(|it| it.write_all(input)));
        child.wait_with_output()
    });
    let output = output.map_err(why)?;
    if !output.status.success() {
        return Err(format!("{program} ended with {}", output.status));
    }
    Ok(output.stdout)
}

fn main() {
    let words: Vec<String> = std::env::args().skip(1).collect();
    let [scenario, program] = words.as_slice() else {
        eprintln!("usage: picture SCENARIO SIMULATE");
        exit(2)
    };
    let scenario =
        fs::read(scenario).unwrap_or_else(|error| fail(2, &[format!("{scenario}: {error}")]));
    let drawn = match picture(&scenario, |input| answers(program, input)) {
        Ok(drawn) => drawn,
        Err(Failure::Scenario(reasons)) => fail(1, &reasons),
        Err(Failure::Program(why)) => fail(2, &[why]),
    };
    if let Err(error) = io::stdout().write_all(drawn.as_bytes()) {
        fail(2, &[format!("the picture cannot be written: {error}")]);
    }
}
