//! Builds a scenario line by line. Each line is also run, so that what comes
//! next can be chosen by looking at the set and state as they stand.

use super::texts::Given;
use crate::random::Random;
use second::engine::{Deadline, State};
use second::scenario::{Loaded, Runner, KEPT_NAME_BYTES, KEPT_SERVICES, KEPT_TEXT_BYTES};

pub struct Builder {
    runner: Runner,
    pub scenario: Vec<u8>,
}

impl Default for Builder {
    fn default() -> Builder {
        Builder::new()
    }
}

impl Builder {
    pub fn new() -> Builder {
        Builder { runner: Runner::new(), scenario: Vec::new() }
    }

    pub fn push_bytes(&mut self, line: &[u8]) {
        self.runner.line(line);
        self.scenario.extend_from_slice(line);
        self.scenario.push(b'\n');
    }

    pub fn push(&mut self, line: &str) {
        self.push_bytes(line.as_bytes());
    }

    pub fn loaded(&self) -> Option<&Loaded> {
        self.runner.loaded()
    }

    pub fn lent(&self) -> (Vec<u8>, Vec<u64>) {
        self.runner.lent()
    }

    /// Gives a service: its name, and its text cut into lines.
    pub fn service(&mut self, random: &mut Random, given: &Given) {
        let mut line = b"service ".to_vec();
        line.extend_from_slice(&given.name);
        self.push_bytes(&line);
        let mut lines: Vec<&[u8]> = given.text.split(|byte| *byte == b'\n').collect();
        let last = lines.pop().unwrap_or_default();
        for text_line in lines {
            let mut rest = text_line;
            if random.one_in(40) {
                let (before, after) = rest.split_at(random.below(rest.len() as u64 + 1) as usize);
                self.push_bytes(&[b"!", before].concat());
                rest = after;
            }
            self.push_bytes(&[b"|", rest].concat());
        }
        if !last.is_empty() || random.one_in(20) {
            self.push_bytes(&[b"!", last].concat());
        }
    }

    /// Lines that put this state, where it differs from the one that stands.
    pub fn put_state(&mut self, goal: &State, places: usize) {
        let Some(loaded) = self.loaded() else {
            return;
        };
        let now = loaded.state.clone();
        if now.clock != goal.clock {
            self.push(&format!("set clock {}", goal.clock));
        }
        for service in 0..places {
            for ((field, value), (_, before)) in
                fields(goal, service).into_iter().zip(fields(&now, service))
            {
                if value != before {
                    self.push(&format!("set {service} {field} {value}"));
                }
            }
        }
    }
}

/// Whether a runner keeps every byte of these services, so that positions of
/// one's own choice mean the same to every runner.
pub fn kept_whole(set: &[Given]) -> bool {
    set.len() <= KEPT_SERVICES
        && set
            .iter()
            .all(|given| given.name.len() <= KEPT_NAME_BYTES && given.text.len() <= KEPT_TEXT_BYTES)
}

/// The fields of a record as `set` takes them.
fn fields(state: &State, service: usize) -> [(&'static str, String); 11] {
    let record = &state.records[service];
    let flag = |value: bool| if value { "1".to_string() } else { "0".to_string() };
    let deadline = match record.deadline {
        Deadline::None => "none".to_string(),
        Deadline::At(time) => time.to_string(),
    };
    [
        ("phase", record.phase.word().to_string()),
        ("wanted", flag(record.wanted)),
        ("aside", flag(record.aside)),
        ("live", flag(record.live)),
        ("cause", record.cause.word().to_string()),
        ("deadline", deadline),
        ("killed", flag(record.killed)),
        ("not-before", record.not_before.to_string()),
        ("last-launch", record.last_launch.to_string()),
        ("window-start", record.window_start.to_string()),
        ("restarts", record.restarts.to_string()),
    ]
}
