//! A run as it is read from a scenario and the answers to it, step by step.

use crate::engine::Phase;

/// What is marked in a lane.
#[derive(Clone, PartialEq, Eq, Debug)]
pub enum Mark {
    Order(&'static str),
    Launch,
    Signal(String),
    StopCommand,
    End(String),
}

/// A service as it stands after a step.
#[derive(Clone, Copy, PartialEq, Eq, Debug)]
pub struct Standing {
    pub phase: Phase,
    pub aside: bool,
    pub live: bool,
    pub cause: bool,
}

/// A call or an action.
#[derive(Clone, Debug)]
pub struct Step {
    pub label: String,
    /// Whether the host made it; else it is an action of the core.
    pub is_call: bool,
    pub clock: u64,
    pub marks: Vec<(usize, Mark)>,
    pub standing: Vec<Standing>,
}

/// A run as it was read.
#[derive(Default, Debug)]
pub struct Run {
    pub names: Vec<String>,
    pub types: Vec<String>,
    pub steps: Vec<Step>,
    clock: u64,
}

/// The run of a scenario and the answers to it; or which line is amiss.
pub fn read(scenario: &[u8], answers: &[u8]) -> Result<Run, String> {
    let scenario = String::from_utf8_lossy(scenario);
    let answers = String::from_utf8_lossy(answers);
    let mut run = Run::default();
    let mut answers = answers.lines().peekable();
    for (index, line) in scenario.lines().enumerate() {
        let number = index + 1;
        if answers.next_if_eq(&format!("bad line {number}").as_str()).is_some() {
            continue;
        }
        run.take(line, &mut answers).ok_or(format!("line {number} has no answer: {line}"))?;
    }
    if run.steps.is_empty() {
        return Err("no set was loaded".to_string());
    }
    Ok(run)
}

type Answers<'a> = std::iter::Peekable<std::str::Lines<'a>>;

impl Run {
    /// Takes a line of the scenario with its answers; none where they are not
    /// what the line asks for.
    fn take(&mut self, line: &str, answers: &mut Answers) -> Option<()> {
        if line.is_empty() || line.starts_with(['%', '|', '!']) || line.starts_with("service ") {
            return Some(());
        }
        let words: Vec<&str> = line.split(' ').collect();
        match words.as_slice() {
            ["load", ..] => self.take_load(answers),
            ["show"] => {
                while !answers.next()?.starts_with("tokens ") {}
                Some(())
            }
            ["state"] => self.take_state(answers),
            _ => {
                self.take_call(&words, answers.next()?);
                Some(())
            }
        }
    }

    fn take_call(&mut self, words: &[&str], answer: &str) {
        if answer.starts_with("refused ") {
            self.step(format!("{}: {answer}", self.label(words)), true, Vec::new());
            return;
        }
        match words[0] {
            "query" => {}
            "next" => self.take_action(answer),
            "run" => answer.split("; ").skip(1).for_each(|action| self.take_action(action)),
            _ => self.take_event(words),
        }
    }

    fn take_load(&mut self, answers: &mut Answers) -> Option<()> {
        *self = Run::default();
        loop {
            let words: Vec<&str> = answers.next()?.split(' ').collect();
            match words.as_slice() {
                ["ok", _] => break,
                ["refused", ..] => return Some(()),
                [_, name, service_type] => {
                    self.names.push(name.to_string());
                    self.types.push(service_type.to_string());
                }
                _ => return None,
            }
        }
        let fresh = Standing { phase: Phase::Down, aside: false, live: false, cause: false };
        let standing = vec![fresh; self.names.len()];
        let label = "loaded".to_string();
        self.steps.push(Step { label, is_call: true, clock: 0, marks: Vec::new(), standing });
        Some(())
    }

    fn take_state(&mut self, answers: &mut Answers) -> Option<()> {
        self.clock = answers.next()?.strip_prefix("clock ")?.parse().ok()?;
        let last = self.steps.last_mut()?;
        last.clock = self.clock;
        while let Some(line) = answers.next_if(|line| line.contains(" wanted=")) {
            let words: Vec<&str> = line.split(' ').collect();
            let place = last.standing.get_mut(words[0].parse::<usize>().ok()?);
            if let Some(standing) = place {
                standing.phase = Phase::from_word(words.get(1)?.as_bytes())?;
                standing.aside = words.contains(&"aside=1");
                standing.live = words.contains(&"live=1");
                standing.cause = !words.contains(&"cause=none");
            }
        }
        Some(())
    }

    /// A further step; it stands as the one before until a state says more.
    fn step(&mut self, label: String, is_call: bool, marks: Vec<(usize, Mark)>) {
        let standing = self.steps.last().map(|step| step.standing.clone()).unwrap_or_default();
        self.steps.push(Step { label, is_call, clock: self.clock, marks, standing });
    }

    /// The words with the service's name in place of its number, and a clock
    /// reading in seconds.
    fn label(&self, words: &[&str]) -> String {
        let number = words.get(1).and_then(|word| word.parse::<u64>().ok());
        let second = match (words[0], number) {
            ("clock", Some(time)) => Some(seconds(time)),
            (_, Some(service)) => self.names.get(service as usize).cloned(),
            _ => None,
        };
        let mut words: Vec<String> = words.iter().map(|word| word.to_string()).collect();
        if let Some(second) = second {
            words[1] = second;
        }
        words.join(" ")
    }

    fn take_action(&mut self, action: &str) {
        let words: Vec<&str> = action.split(' ').collect();
        let service = words.get(1).and_then(|word| word.parse::<usize>().ok());
        let marks = match (words[0], service) {
            ("launch", Some(service)) => vec![(service, Mark::Launch)],
            ("stop-command", Some(service)) => vec![(service, Mark::StopCommand)],
            ("signal", Some(service)) => {
                let name = words.get(2).unwrap_or(&"").to_string();
                vec![(service, Mark::Signal(name))]
            }
            ("quiet", _) => return,
            _ => Vec::new(),
        };
        self.step(self.label(&words), false, marks);
    }

    fn take_event(&mut self, words: &[&str]) {
        let service = words.get(1).and_then(|word| word.parse::<usize>().ok());
        let marks = match (words[0], service) {
            ("start", Some(service)) => vec![(service, Mark::Order("start"))],
            ("stop", Some(service)) => vec![(service, Mark::Order("stop"))],
            ("stop-all", _) => {
                (0..self.names.len()).map(|service| (service, Mark::Order("stop"))).collect()
            }
            ("end", Some(service)) => {
                vec![(service, Mark::End(words.get(2).unwrap_or(&"").to_string()))]
            }
            _ => Vec::new(),
        };
        if let ["clock", time] = words {
            self.clock = time.parse().unwrap_or(self.clock);
        }
        self.step(self.label(words), true, marks);
    }
}

/// A time in units of 0.1 ms as seconds.
pub fn seconds(time: u64) -> String {
    let (whole, rest) = (time / 10_000, time % 10_000);
    if rest == 0 {
        format!("{whole} s")
    } else {
        format!("{whole}.{} s", format!("{rest:04}").trim_end_matches('0'))
    }
}
