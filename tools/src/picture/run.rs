//! A run as it is read from its steps and the answers to them.

use super::answers::Answered;
use super::held::{held, Held, Settings};
use crate::case::printable;
use second::engine::{Cause, Phase, Record};

/// What is marked in a lane.
#[derive(Clone, PartialEq, Eq, Debug)]
pub enum Mark {
    Order(&'static str),
    Launch,
    Signal(String),
    StopCommand,
    End(String),
}

/// A service as it stands after a step.
#[derive(Clone, Copy, PartialEq, Eq, Debug)]
pub struct Standing {
    pub phase: Phase,
    pub wanted: bool,
    pub aside: bool,
    pub live: bool,
    pub cause: Cause,
    pub window_start: u64,
    pub restarts: u64,
}

impl Standing {
    fn of(record: &Record) -> Standing {
        let Record { phase, wanted, aside, live, cause, window_start, restarts, .. } = *record;
        Standing { phase, wanted, aside, live, cause, window_start, restarts }
    }

    /// The service of a line of `state`, and how it stands.
    fn read(line: &str) -> Option<(usize, Standing)> {
        let words: Vec<&str> = line.split(' ').collect();
        let value =
            |name: &str| words.iter().find_map(|word| word.strip_prefix(name)?.strip_prefix('='));
        let standing = Standing {
            phase: Phase::from_word(words.get(1)?.as_bytes())?,
            wanted: words.contains(&"wanted=1"),
            aside: words.contains(&"aside=1"),
            live: words.contains(&"live=1"),
            cause: Cause::from_word(value("cause")?.as_bytes())?,
            window_start: value("window-start")?.parse().ok()?,
            restarts: value("restarts")?.parse().ok()?,
        };
        Some((words[0].parse().ok()?, standing))
    }
}

/// A call or an action.
#[derive(Clone, Debug)]
pub struct Step {
    pub label: String,
    /// Whether the host made it; else it is an action of the core.
    pub is_call: bool,
    pub clock: u64,
    pub marks: Vec<(usize, Mark)>,
    pub standing: Vec<Standing>,
    /// What is held back of each service.
    pub held: Vec<Option<Held>>,
}

/// A run as it was read.
#[derive(Default, Debug)]
pub struct Run {
    pub names: Vec<String>,
    pub types: Vec<String>,
    pub steps: Vec<Step>,
    settings: Vec<Settings>,
}

/// The run of steps and the answers to them; or which line has no answer.
pub fn read(lines: &[Answered]) -> Result<Run, String> {
    let mut run = Run::default();
    for line in lines.iter().filter(|line| !line.answer.is_empty()) {
        run.take(line).ok_or_else(|| {
            let answer = line.answer.join("; ");
            format!("no answer to a step: {}: {answer}", printable(line.line))
        })?;
    }
    run.fill_lanes();
    Ok(run)
}

impl Run {
    /// Takes a line with its answer; none where the answer is not one to it.
    fn take(&mut self, line: &Answered) -> Option<()> {
        let text = String::from_utf8_lossy(line.line);
        let words: Vec<&str> = text.split(' ').collect();
        let answer = *line.answer.first()?;
        match words[0] {
            "load" => return self.take_load(&line.answer),
            "show" => return self.take_settings(&line.answer),
            "state" => return self.take_state(&line.answer),
            _ if line.is_refused() => {
                self.step(format!("{}: {answer}", self.label(&words)), true, Vec::new());
            }
            "next" => self.take_action(answer),
            _ => self.take_event(&words),
        }
        Some(())
    }

    fn take_load(&mut self, answer: &[&str]) -> Option<()> {
        for line in &answer[..answer.len() - 1] {
            let words: Vec<&str> = line.split(' ').collect();
            let [_, name, service_type] = words.as_slice() else { return None };
            self.names.push(name.to_string());
            self.types.push(service_type.to_string());
        }
        self.step("load".to_string(), true, Vec::new());
        Some(())
    }

    fn take_settings(&mut self, answer: &[&str]) -> Option<()> {
        let lines = answer[..answer.len() - 1].iter();
        self.settings = lines.map(|line| Settings::of(line)).collect::<Option<_>>()?;
        Some(())
    }

    /// The state after the last step.
    fn take_state(&mut self, answer: &[&str]) -> Option<()> {
        let step = self.steps.last_mut()?;
        step.clock = answer[0].strip_prefix("clock ")?.parse().ok()?;
        for line in &answer[1..] {
            let (service, standing) = Standing::read(line)?;
            if service >= step.standing.len() {
                step.standing.resize(service + 1, Standing::of(&Record::FRESH));
            }
            step.standing[service] = standing;
        }
        let services = 0..step.standing.len();
        step.held = services
            .map(|service| held(&self.settings, &step.standing, step.clock, service))
            .collect();
        Some(())
    }

    /// A further step; it stands as the one before until a state says more.
    fn step(&mut self, label: String, is_call: bool, marks: Vec<(usize, Mark)>) {
        let fresh = vec![Standing::of(&Record::FRESH); self.names.len()];
        let standing = self.steps.last().map_or(fresh, |step| step.standing.clone());
        let held = vec![None; standing.len()];
        self.steps.push(Step { label, is_call, clock: 0, marks, standing, held });
    }

    /// The words with the service's name in place of its number, and a clock
    /// reading in seconds.
    fn label(&self, words: &[&str]) -> String {
        let number = words.get(1).and_then(|word| word.parse::<u64>().ok());
        let second = match (words[0], number) {
            ("clock", Some(time)) => Some(seconds(time)),
            ("run", _) => None,
            (_, Some(service)) => self.names.get(service as usize).cloned(),
            _ => None,
        };
        let mut words: Vec<String> = words.iter().map(|word| word.to_string()).collect();
        if let Some(second) = second {
            words[1] = second;
        }
        words.join(" ")
    }

    fn take_action(&mut self, action: &str) {
        let words: Vec<&str> = action.split(' ').collect();
        let service = words.get(1).and_then(|word| word.parse::<usize>().ok());
        let marks = match (words[0], service) {
            ("launch", Some(service)) => vec![(service, Mark::Launch)],
            ("stop-command", Some(service)) => vec![(service, Mark::StopCommand)],
            ("signal", Some(service)) => {
                let name = words.get(2).unwrap_or(&"").to_string();
                vec![(service, Mark::Signal(name))]
            }
            _ => Vec::new(),
        };
        self.step(self.label(&words), false, marks);
    }

    fn take_event(&mut self, words: &[&str]) {
        let service = words.get(1).and_then(|word| word.parse::<usize>().ok());
        let marks = match (words[0], service) {
            ("start", Some(service)) => vec![(service, Mark::Order("start"))],
            ("stop", Some(service)) => vec![(service, Mark::Order("stop"))],
            ("stop-all", _) => {
                (0..self.names.len()).map(|service| (service, Mark::Order("stop"))).collect()
            }
            ("end", Some(service)) => {
                vec![(service, Mark::End(words.get(2).unwrap_or(&"").to_string()))]
            }
            _ => Vec::new(),
        };
        self.step(self.label(words), true, marks);
    }

    /// Lanes for the places past the loaded services that `table count` took
    /// in: they are internal and have no name.
    fn fill_lanes(&mut self) {
        let lanes = self.steps.iter().map(|step| step.standing.len()).max().unwrap_or(0);
        self.names.resize(lanes, "(no name)".to_string());
        self.types.resize(lanes, "internal".to_string());
        for step in &mut self.steps {
            step.standing.resize(lanes, Standing::of(&Record::FRESH));
            step.held.resize(lanes, None);
        }
    }
}

/// A time in units of 0.1 ms as seconds.
pub fn seconds(time: u64) -> String {
    let (whole, rest) = (time / 10_000, time % 10_000);
    if rest == 0 {
        format!("{whole} s")
    } else {
        format!("{whole}.{} s", format!("{rest:04}").trim_end_matches('0'))
    }
}
