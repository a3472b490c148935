//! The scenario runner: reads a scenario, a set of descriptions and a list of
//! calls, and writes an answer for every call. The format is that of
//! docs/SCENARIO.md, byte for byte.

use crate::engine::{self, Action, Cause, Deadline, Kind, Phase, ServiceSet, State, Table, PLACES};
use crate::loader;
use crate::program::{lend, loaded_lines, refusal_line};

/// The bytes of standard input that are read.
pub const INPUT_BYTES: usize = 262_144;

/// What is kept of the services given; more can only be refused.
pub const KEPT_SERVICES: usize = 33;
pub const KEPT_TEXT_BYTES: usize = 4_097;
pub const KEPT_NAME_BYTES: usize = 33;

const LARGEST_ROOM: u64 = 65_536;
const MOST_POSITIONS: usize = 70;
const LARGEST_SLICE: u64 = 256;

/// The answers to a whole scenario.
pub fn simulate(input: &[u8]) -> Vec<u8> {
    let mut runner = Runner::new();
    let mut output = Vec::new();
    for line in lines_of(&input[..input.len().min(INPUT_BYTES)]) {
        output.extend_from_slice(&runner.line(line));
    }
    output
}

/// A newline ends a line; the last may lack it.
pub fn lines_of(input: &[u8]) -> Vec<&[u8]> {
    let mut lines: Vec<&[u8]> = input.split(|byte| *byte == b'\n').collect();
    if lines.last().is_some_and(|line| line.is_empty()) {
        lines.pop();
    }
    lines
}

/// A set that is loaded, and the state that the calls have given back.
#[derive(Clone)]
pub struct Loaded {
    pub services: usize,
    pub table: Table,
    pub state: State,
    pub tokens: Vec<u8>,
}

/// A line that is none of the format's.
struct BadLine;

type Answer = Result<Vec<u8>, BadLine>;

/// Takes the lines of a scenario one by one.
#[derive(Clone)]
pub struct Runner {
    names: Vec<Vec<u8>>,
    texts: Vec<Vec<u8>>,
    begun: usize,
    loaded: Option<Loaded>,
    lines: u64,
}

impl Default for Runner {
    fn default() -> Runner {
        Runner::new()
    }
}

impl Runner {
    pub fn new() -> Runner {
        Runner { names: Vec::new(), texts: Vec::new(), begun: 0, loaded: None, lines: 0 }
    }

    pub fn loaded(&self) -> Option<&Loaded> {
        self.loaded.as_ref()
    }

    /// The lent bytes and positions of the services given so far.
    pub fn lent(&self) -> (Vec<u8>, Vec<u64>) {
        let names: Vec<&[u8]> = self.names.iter().map(Vec::as_slice).collect();
        lend(&names, &self.texts)
    }

    /// Takes one line, without its newline, and gives its answer.
    pub fn line(&mut self, line: &[u8]) -> Vec<u8> {
        self.lines += 1;
        match self.good_line(line) {
            Ok(answer) => answer,
            Err(BadLine) => format!("bad line {}\n", self.lines).into_bytes(),
        }
    }

    fn good_line(&mut self, line: &[u8]) -> Answer {
        match line.first() {
            None | Some(b'%') => return Ok(Vec::new()),
            Some(b'|') => return self.add_text(&line[1..], true),
            Some(b'!') => return self.add_text(&line[1..], false),
            Some(_) => {}
        }
        if let Some(name) = line.strip_prefix(b"service ") {
            return self.begin_service(name);
        }
        let words: Vec<&[u8]> = line.split(|byte| *byte == b' ').collect();
        if let [b"load", room, positions @ ..] = words.as_slice() {
            return self.load(room, positions);
        }
        let loaded = self.loaded.as_mut().ok_or(BadLine)?;
        loaded.line(&words)
    }

    fn begin_service(&mut self, name: &[u8]) -> Answer {
        if self.begun < KEPT_SERVICES {
            self.names.push(name[..name.len().min(KEPT_NAME_BYTES)].to_vec());
            self.texts.push(Vec::new());
        }
        self.begun += 1;
        Ok(Vec::new())
    }

    fn add_text(&mut self, added: &[u8], with_newline: bool) -> Answer {
        if self.begun == 0 {
            return Err(BadLine);
        }
        if self.begun <= KEPT_SERVICES {
            let text = &mut self.texts[self.begun - 1];
            text.extend_from_slice(added);
            if with_newline {
                text.push(b'\n');
            }
            text.truncate(KEPT_TEXT_BYTES);
        }
        Ok(Vec::new())
    }

    fn load(&mut self, room: &[u8], positions: &[&[u8]]) -> Answer {
        let room = number_at_most(room, LARGEST_ROOM)?;
        let (bytes, own_positions) = self.lent();
        let positions = match positions {
            [] => own_positions,
            [b"-"] => Vec::new(),
            given if given.len() <= MOST_POSITIONS => {
                given.iter().map(|word| number(word)).collect::<Result<Vec<u64>, BadLine>>()?
            }
            _ => return Err(BadLine),
        };
        let mut buffer = vec![0; room as usize];
        self.loaded = None;
        match loader::load(&bytes, &positions, &mut buffer) {
            Err(refusal) => Ok(refusal_line(refusal).into_bytes()),
            Ok(set) => {
                let parts = loader::parts_of(&bytes, &positions).unwrap_or_default();
                let names: Vec<&[u8]> = parts.iter().map(|part| part.name).collect();
                let answer = loaded_lines(&names, &set.table);
                self.loaded = Some(Loaded {
                    services: names.len(),
                    table: set.table,
                    state: State::FRESH,
                    tokens: buffer[..set.written].to_vec(),
                });
                Ok(answer)
            }
        }
    }
}

impl Loaded {
    /// The lines that need a loaded set.
    fn line(&mut self, words: &[&[u8]]) -> Answer {
        let (table, state) = (&self.table, &mut self.state);
        match words {
            [b"show"] => Ok(self.show()),
            [b"state"] => Ok(self.show_state()),
            [b"set", b"clock", time] => {
                state.clock = number(time)?;
                ok()
            }
            [b"set", service, field, value] => self.set(place(service)?, field, value),
            [b"table", b"count", count] => {
                self.table.count = number(count)?;
                ok()
            }
            [b"table", service, field, value] => self.set_table(place(service)?, field, value),
            [b"start", service] => event(engine::start(table, state, number(service)?)),
            [b"stop", service] => event(engine::stop(table, state, number(service)?)),
            [b"stop-all"] => event(engine::stop_all(table, state)),
            [b"end", service, b"good"] => event(engine::end(table, state, number(service)?, true)),
            [b"end", service, b"bad"] => event(engine::end(table, state, number(service)?, false)),
            [b"clock", time] => event(engine::clock(table, state, number(time)?)),
            [b"next"] => match engine::next_action(table, state) {
                Ok(action) => line(&action_words(action)),
                Err(refused) => refusal(refused),
            },
            [b"run"] => self.run(LARGEST_SLICE, LARGEST_SLICE),
            [b"run", first, second] => self
                .run(number_at_most(first, LARGEST_SLICE)?, number_at_most(second, LARGEST_SLICE)?),
            [b"query"] => match engine::query(table, state) {
                Ok(Some(time)) => line(&format!("at {time}")),
                Ok(None) => line("none"),
                Err(refused) => refusal(refused),
            },
            _ => Err(BadLine),
        }
    }

    fn run(&mut self, first: u64, second: u64) -> Answer {
        let mut services = vec![0; first as usize];
        let mut actions = vec![0; second as usize];
        let result =
            engine::run_to_quiet(&self.table, &mut self.state, &mut services, &mut actions);
        match result {
            Err(refused) => refusal(refused),
            Ok(count) => {
                let mut answer = format!("run {count}");
                for filled in 0..count {
                    let action = Action::from_numbers(services[filled], actions[filled]);
                    let action = action.expect("a run writes the numbers of actions");
                    answer.push_str("; ");
                    answer.push_str(&action_words(action));
                }
                line(&answer)
            }
        }
    }

    fn set(&mut self, service: usize, field: &[u8], value: &[u8]) -> Answer {
        let record = &mut self.state.records[service];
        match field {
            b"phase" => record.phase = Phase::from_word(value).ok_or(BadLine)?,
            b"wanted" => record.wanted = flag(value)?,
            b"aside" => record.aside = flag(value)?,
            b"live" => record.live = flag(value)?,
            b"cause" => record.cause = Cause::from_word(value).ok_or(BadLine)?,
            b"deadline" => {
                record.deadline = match value {
                    b"none" => Deadline::None,
                    time => Deadline::At(number(time)?),
                }
            }
            b"killed" => record.killed = flag(value)?,
            b"not-before" => record.not_before = number(value)?,
            b"last-launch" => record.last_launch = number(value)?,
            b"window-start" => record.window_start = number(value)?,
            b"restarts" => record.restarts = number(value)?,
            _ => return Err(BadLine),
        }
        ok()
    }

    fn set_table(&mut self, service: usize, field: &[u8], value: &[u8]) -> Answer {
        let place = &mut self.table.services[service];
        let value = number(value)?;
        match field {
            b"restart-delay" => place.restart_delay = value,
            b"restart-limit-interval" => place.restart_limit_interval = value,
            b"restart-limit-count" => place.restart_limit_count = value,
            b"start-timeout" => place.start_timeout = value,
            b"stop-timeout" => place.stop_timeout = value,
            b"depends-on" => place.depends_on = ServiceSet::from_number(value),
            b"depends-ms" => place.depends_ms = ServiceSet::from_number(value),
            b"waits-for" => place.waits_for = ServiceSet::from_number(value),
            _ => return Err(BadLine),
        }
        ok()
    }

    fn show(&self) -> Vec<u8> {
        let mut answer = String::new();
        for number in 0..self.services {
            let service = &self.table.services[number];
            let restart = if service.restart { "yes" } else { "no" };
            answer.push_str(&format!("{number} type={}", service.service_type.word()));
            answer.push_str(&format!(" restart={restart}"));
            answer.push_str(&format!(" restart-delay={}", service.restart_delay));
            let interval = service.restart_limit_interval;
            answer.push_str(&format!(" restart-limit-interval={interval}"));
            answer.push_str(&format!(" restart-limit-count={}", service.restart_limit_count));
            answer.push_str(&format!(" start-timeout={}", service.start_timeout));
            answer.push_str(&format!(" stop-timeout={}", service.stop_timeout));
            answer.push_str(&format!(" term-signal={}", service.term_signal.word()));
            for kind in Kind::ALL {
                let members: Vec<String> =
                    service.dependencies(kind).members().iter().map(usize::to_string).collect();
                answer.push_str(&format!(" {}={}", kind.word(), members.join(",")));
            }
            answer.push_str(&format!(" command={}", service.command_tokens));
            answer.push_str(&format!(" stop-command={}\n", service.stop_command_tokens));
        }
        answer.push_str("tokens ");
        if self.tokens.is_empty() {
            answer.push('-');
        }
        for byte in &self.tokens {
            answer.push_str(&format!("{byte:02x}"));
        }
        answer.push('\n');
        answer.into_bytes()
    }

    fn show_state(&self) -> Vec<u8> {
        let mut answer = format!("clock {}\n", self.state.clock);
        for number in self.table.numbers() {
            let record = &self.state.records[number];
            let flag = |value: bool| if value { 1 } else { 0 };
            let deadline = match record.deadline {
                Deadline::None => "none".to_string(),
                Deadline::At(time) => time.to_string(),
            };
            answer.push_str(&format!("{number} {}", record.phase.word()));
            answer.push_str(&format!(" wanted={}", flag(record.wanted)));
            answer.push_str(&format!(" aside={}", flag(record.aside)));
            answer.push_str(&format!(" live={}", flag(record.live)));
            answer.push_str(&format!(" cause={}", record.cause.word()));
            answer.push_str(&format!(" deadline={deadline}"));
            answer.push_str(&format!(" killed={}", flag(record.killed)));
            answer.push_str(&format!(" not-before={}", record.not_before));
            answer.push_str(&format!(" last-launch={}", record.last_launch));
            answer.push_str(&format!(" window-start={}", record.window_start));
            answer.push_str(&format!(" restarts={}\n", record.restarts));
        }
        answer.into_bytes()
    }
}

/// "A number is 1 to 20 decimal digits, leading zeros allowed, that fit 64
/// bits."
fn number(word: &[u8]) -> Result<u64, BadLine> {
    if !(1..=20).contains(&word.len()) || !word.iter().all(u8::is_ascii_digit) {
        return Err(BadLine);
    }
    let value = word.iter().fold(0u128, |value, digit| value * 10 + u128::from(digit - b'0'));
    u64::try_from(value).map_err(|_| BadLine)
}

fn number_at_most(word: &[u8], most: u64) -> Result<u64, BadLine> {
    match number(word)? {
        value if value <= most => Ok(value),
        _ => Err(BadLine),
    }
}

/// A place of table and state: a number below 32.
fn place(word: &[u8]) -> Result<usize, BadLine> {
    Ok(number_at_most(word, PLACES as u64 - 1)? as usize)
}

/// A flag is exactly `0` or `1`.
fn flag(word: &[u8]) -> Result<bool, BadLine> {
    match word {
        b"0" => Ok(false),
        b"1" => Ok(true),
        _ => Err(BadLine),
    }
}

fn line(words: &str) -> Answer {
    Ok(format!("{words}\n").into_bytes())
}

fn ok() -> Answer {
    line("ok")
}

fn refusal(number: u64) -> Answer {
    line(&format!("refused {number}"))
}

fn event(result: Result<(), u64>) -> Answer {
    match result {
        Ok(()) => ok(),
        Err(number) => refusal(number),
    }
}

/// An action as `next` writes it.
pub fn action_words(action: Action) -> String {
    match action {
        Action::Moved(service) => format!("moved {service}"),
        Action::Launch(service) => format!("launch {service}"),
        Action::Signal(service, signal) => format!("signal {service} {}", signal.word()),
        Action::StopCommand(service) => format!("stop-command {service}"),
        Action::Quiet => "quiet".to_string(),
    }
}
