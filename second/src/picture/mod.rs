//! The picture of a run: a scenario with `state` lines and what `simulate`
//! answered to it become an SVG with a lane for each service, its phases from
//! step to step, and marks for launches, signals, stop commands, ends and
//! orders. A step is a call or an action; the clock parts the steps.

mod draw;
mod run;

use crate::engine::PLACES;
use crate::scenario::lines_of;

const CALLS: [&[u8]; 9] =
    [b"start", b"stop", b"stop-all", b"end", b"clock", b"next", b"run", b"set", b"table"];

/// The scenario with a `state` after each call, and each `run` taken apart into
/// requests for the next action, so that every action shows as a step.
pub fn steps_of(scenario: &[u8]) -> Vec<u8> {
    let mut steps = Vec::new();
    let mut services = 0;
    for line in lines_of(scenario) {
        if line == b"run" {
            steps.extend(b"next\nstate\n".repeat(4 * services.min(PLACES)));
            continue;
        }
        steps.extend_from_slice(line);
        steps.push(b'\n');
        let word = line.split(|byte| *byte == b' ').next().unwrap_or_default();
        if CALLS.contains(&word) || word == b"load" {
            steps.extend_from_slice(b"state\n");
        }
        services += usize::from(word == b"service");
    }
    steps
}

/// The SVG of a scenario and the answers to it; or which line is amiss.
pub fn picture(scenario: &[u8], answers: &[u8]) -> Result<String, String> {
    Ok(draw::svg(&run::read(scenario, answers)?))
}
