//! The watch over a list of calls. It makes each call and reports what it breaks
//! of demand 3: a launch, signal or stop command handed out while a service
//! that hard-depends on the service has a live process; more than 4n actions
//! before quiet; or a service that is not down after n + 1 rounds.

use second::engine::rules::{first_fitting, step};
use second::engine::*;
use second::scenario::action_words;

/// A call of demand 3's lists.
#[derive(Clone, Copy, PartialEq, Eq, Debug)]
pub enum Call {
    Start(u64),
    Stop(u64),
    StopAll,
    End(u64, bool),
    Clock(u64),
    Next,
    Run(u64, u64),
    Query,
}

impl Call {
    /// The line of a scenario.
    pub fn line(self) -> String {
        match self {
            Call::Start(service) => format!("start {service}"),
            Call::Stop(service) => format!("stop {service}"),
            Call::StopAll => "stop-all".to_string(),
            Call::End(service, true) => format!("end {service} good"),
            Call::End(service, false) => format!("end {service} bad"),
            Call::Clock(time) => format!("clock {time}"),
            Call::Next => "next".to_string(),
            Call::Run(first, second) => format!("run {first} {second}"),
            Call::Query => "query".to_string(),
        }
    }

    /// The call of a scenario's line.
    pub fn from_line(line: &str) -> Option<Call> {
        let words: Vec<&str> = line.split(' ').collect();
        let number = |word: &str| word.parse::<u64>().ok();
        match words.as_slice() {
            ["start", service] => Some(Call::Start(number(service)?)),
            ["stop", service] => Some(Call::Stop(number(service)?)),
            ["stop-all"] => Some(Call::StopAll),
            ["end", service, how] => Some(Call::End(number(service)?, *how == "good")),
            ["clock", time] => Some(Call::Clock(number(time)?)),
            ["next"] => Some(Call::Next),
            ["run"] => Some(Call::Run(256, 256)),
            ["run", first, second] => Some(Call::Run(number(first)?, number(second)?)),
            ["query"] => Some(Call::Query),
            _ => None,
        }
    }
}

/// The parts of a round, in order.
#[derive(Clone, Copy, PartialEq, Eq, Debug)]
enum Part {
    ClockReading,
    ActionsToQuiet,
    EndsOfKilled,
    ActionsToQuietAgain,
}

/// The rounds since a stop all with no accepted start after it.
#[derive(Clone, Copy, Debug)]
struct Rounds {
    ended: u64,
    part: Part,
}

/// Watches a list of calls from the fresh state of a loaded set.
pub struct Watch<'a> {
    pub table: &'a Table,
    pub state: State,
    /// Demand 3's record: the services that have a live process.
    record: [bool; PLACES],
    /// The live processes that were sent a deadline's KILL (rule 8's).
    killed: [bool; PLACES],
    /// For each service, those that hard-depend on it, directly or through
    /// others.
    hard_dependents: Vec<[bool; PLACES]>,
    rounds: Option<Rounds>,
    pub rounds_ended: u64,
    /// The most actions before quiet that were seen.
    pub most_actions: usize,
}

impl<'a> Watch<'a> {
    pub fn new(table: &'a Table) -> Watch<'a> {
        Watch {
            table,
            state: State::FRESH,
            record: [false; PLACES],
            killed: [false; PLACES],
            hard_dependents: (0..PLACES).map(|service| hard_dependents(table, service)).collect(),
            rounds: None,
            rounds_ended: 0,
            most_actions: 0,
        }
    }

    /// Makes one call; reports what it breaks of demand 3.
    pub fn call(&mut self, call: Call) -> Result<(), String> {
        match call {
            Call::Start(service) => {
                if start(self.table, &mut self.state, service).is_ok() {
                    self.rounds = None;
                }
            }
            Call::Stop(service) => {
                let _ = stop(self.table, &mut self.state, service);
            }
            Call::StopAll => {
                if stop_all(self.table, &mut self.state).is_ok() && self.rounds.is_none() {
                    self.rounds = Some(Rounds { ended: 0, part: Part::ClockReading });
                }
            }
            Call::End(service, good) => {
                if end(self.table, &mut self.state, service, good).is_ok() {
                    self.record[service as usize] = false;
                    self.killed[service as usize] = false;
                }
            }
            Call::Clock(time) => self.clock_reading(time),
            Call::Next => {
                let before = self.state.clone();
                if let Ok(action) = next_action(self.table, &mut self.state) {
                    self.action(&before, action)?;
                }
            }
            Call::Run(first, second) => self.run(first, second)?,
            Call::Query => {
                let _ = query(self.table, &self.state);
            }
        }
        self.bound()?;
        self.go_on_with_rounds()
    }

    fn clock_reading(&mut self, time: u64) {
        let accepted = clock(self.table, &mut self.state, time).is_ok();
        let pending = self.table.numbers().any(|service| {
            matches!(self.state.records[service].deadline, Deadline::At(due) if time < due)
        });
        if let Some(rounds) = &mut self.rounds {
            if rounds.part == Part::ClockReading && accepted && !pending {
                rounds.part = Part::ActionsToQuiet;
            }
        }
    }

    /// A run, held against the same actions taken singly.
    fn run(&mut self, first: u64, second: u64) -> Result<(), String> {
        let mut services = vec![0; first as usize];
        let mut actions = vec![0; second as usize];
        let mut after = self.state.clone();
        if steps_to_quiet(self.table, &self.state).is_none() {
            return Err(self.beyond_bound());
        }
        let run = run_to_quiet(self.table, &mut after, &mut services, &mut actions);
        let Ok(count) = run else {
            return Ok(());
        };
        for filled in 0..count {
            let before = self.state.clone();
            let action = step(self.table, &mut self.state);
            let numbers = (action.service().map(|service| service as u64), action.number());
            if numbers != (Some(services[filled]), Some(actions[filled])) {
                return Err("a run hands out other actions than single requests".to_string());
            }
            self.action(&before, action)?;
        }
        if self.state != after || first_fitting(self.table, &self.state).is_some() {
            return Err("a run leaves another state than single requests".to_string());
        }
        Ok(())
    }

    /// Demand 3's first half, at one action.
    fn action(&mut self, before: &State, action: Action) -> Result<(), String> {
        let (outside, service) = match action {
            Action::Launch(service) | Action::StopCommand(service) => (true, service),
            Action::Signal(service, _) => (true, service),
            Action::Moved(service) => (false, service),
            Action::Quiet => return Ok(()),
        };
        if outside {
            for dependent in self.table.numbers() {
                if self.hard_dependents[service][dependent] && self.record[dependent] {
                    return Err(format!(
                        "{} is handed out while {dependent}, which hard-depends on {service}, \
                         has a live process",
                        action_words(action)
                    ));
                }
            }
        }
        match action {
            Action::Launch(_) | Action::StopCommand(_) => {
                self.record[service] = true;
                self.killed[service] = false;
            }
            Action::Signal(_, Signal::Kill) if before.records[service].phase == Phase::Ending => {
                self.killed[service] = true;
            }
            _ => {}
        }
        Ok(())
    }

    /// "at most 4n actions, mere moves counted, come before quiet".
    fn bound(&mut self) -> Result<(), String> {
        match steps_to_quiet(self.table, &self.state) {
            None => Err(self.beyond_bound()),
            Some(steps) => {
                self.most_actions = self.most_actions.max(steps);
                Ok(())
            }
        }
    }

    fn beyond_bound(&self) -> String {
        format!("more than {} actions come before quiet", 4 * self.table.count)
    }

    /// Where actions have gone to quiet already, a further request changes
    /// nothing, so a part that asks for it is done as soon as the state is
    /// quiet.
    fn go_on_with_rounds(&mut self) -> Result<(), String> {
        let Some(mut rounds) = self.rounds else {
            return Ok(());
        };
        let quiet = first_fitting(self.table, &self.state).is_none();
        if rounds.part == Part::ActionsToQuiet && quiet {
            rounds.part = Part::EndsOfKilled;
        }
        if rounds.part == Part::EndsOfKilled && self.killed_and_live().is_empty() {
            rounds.part = Part::ActionsToQuietAgain;
        }
        if rounds.part == Part::ActionsToQuietAgain && quiet {
            rounds.part = Part::ClockReading;
            rounds.ended += 1;
            self.rounds_ended += 1;
        }
        self.rounds = Some(rounds);
        if rounds.ended > self.table.count && no_timeout_is_zero(self.table) {
            for service in self.table.numbers() {
                if self.state.records[service].phase != Phase::Down {
                    return Err(format!(
                        "{service} is not down after a stop all and {} rounds",
                        rounds.ended
                    ));
                }
            }
        }
        Ok(())
    }

    /// The services whose live process was sent a deadline's KILL.
    pub fn killed_and_live(&self) -> Vec<usize> {
        let both = |service: &usize| self.record[*service] && self.killed[*service];
        self.table.numbers().filter(both).collect()
    }
}

fn no_timeout_is_zero(table: &Table) -> bool {
    table.numbers().all(|number| {
        let service = &table.services[number];
        service.start_timeout != 0 && service.stop_timeout != 0
    })
}

fn hard_dependents(table: &Table, service: usize) -> [bool; PLACES] {
    let mut found = [false; PLACES];
    let mut open = vec![service];
    while let Some(dependency) = open.pop() {
        for dependent in table.numbers() {
            if table.services[dependent].depends_on.holds[dependency] && !found[dependent] {
                found[dependent] = true;
                open.push(dependent);
            }
        }
    }
    found
}

/// The actions before quiet; none where more than 4n come.
pub fn steps_to_quiet(table: &Table, state: &State) -> Option<usize> {
    let mut state = state.clone();
    (0..=4 * table.count as usize).find(|_| step(table, &mut state) == Action::Quiet)
}

/// Makes the calls from the fresh state; reports what they break, if anything.
pub fn broken_by(table: &Table, calls: &[Call]) -> Option<String> {
    let mut watch = Watch::new(table);
    calls.iter().find_map(|call| watch.call(*call).err())
}
