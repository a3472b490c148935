//! The picture of a run: an SVG with a lane for each service, its phases from
//! step to step, and marks for orders, launches, signals, stop commands, ends
//! and what is held back. A step is a call or an action.
//!
//! `simulate` is asked twice. What it answers to the scenario as it stands
//! says what is wrong there, by its own line numbers, and how many actions
//! each run took. Then it is asked for the steps: the last load and the calls
//! after it, each run taken apart, with a `state` after every step.

mod answers;
mod draw;
mod held;
mod run;
mod steps;

use answers::{answered, faults_in};
use second::scenario::INPUT_BYTES;

/// Why there is no picture.
#[derive(Clone, PartialEq, Eq, Debug)]
pub enum Failure {
    /// The scenario cannot be drawn, for these reasons.
    Scenario(Vec<String>),
    /// The program that is asked does not answer as `simulate` does.
    Program(String),
}

impl From<String> for Failure {
    fn from(why: String) -> Failure {
        Failure::Program(why)
    }
}

/// The SVG of a scenario; `simulate` gives the answers to one.
pub fn picture(
    scenario: &[u8],
    simulate: impl Fn(&[u8]) -> Result<Vec<u8>, String>,
) -> Result<String, Failure> {
    is_read_whole("the scenario", scenario)?;
    let answers = simulate(scenario)?;
    let answers = String::from_utf8_lossy(&answers);
    let lines = answered(scenario, &answers)?;
    let faults = faults_in(&lines);
    if !faults.is_empty() {
        return Err(Failure::Scenario(faults));
    }
    let (earlier, last) = steps::split(&lines);
    let steps = steps::of(earlier, last);
    is_read_whole("the scenario with its steps taken apart", &steps)?;
    let answers = simulate(&steps)?;
    let answers = String::from_utf8_lossy(&answers);
    let run = run::read(&answered(&steps, &answers)?)?;
    Ok(draw::svg(&run, &steps::note(earlier, last)))
}

/// `simulate` reads a number of bytes, and says nothing of the rest.
fn is_read_whole(what: &str, bytes: &[u8]) -> Result<(), Failure> {
    if bytes.len() <= INPUT_BYTES {
        return Ok(());
    }
    let why = format!("{what} has {} bytes; simulate reads {INPUT_BYTES}", bytes.len());
    Err(Failure::Scenario(vec![why]))
}
