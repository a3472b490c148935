//! Random search for a list of calls that breaks demand 3, by what the watch
//! reports. The bound of 4n actions is tried from states of every kind that list
//! 24 passes, too.

use crate::generate::builder::Builder;
use crate::generate::scenarios::random_call;
use crate::generate::sketch::{set_size, sketch_set, Manner};
use crate::generate::states::{free_table, random_record, random_state};
use crate::generate::texts::{plain_text, Given};
use crate::random::Random;
use crate::reduce::reduce;
use crate::watch::{broken_by, steps_to_quiet, Call, Watch};
use second::engine::list24::ill_formed;
use second::engine::rules::first_fitting;
use second::engine::*;
use second::loader;
use second::program::lend;
use std::time::{Duration, Instant};

/// What a search tried and found.
#[derive(Default)]
pub struct Tried {
    pub lists: u64,
    pub calls: u64,
    pub rounds: u64,
    pub states: u64,
    /// The most actions before quiet for one service, as actions and services.
    pub most: (usize, u64),
    /// The scenario that breaks demand 3, and how.
    pub broken: Option<Vec<u8>>,
}

impl Tried {
    fn saw(&mut self, actions: usize, count: u64) {
        let (most, services) = self.most;
        if services == 0 || actions as u64 * services > most as u64 * count {
            self.most = (actions, count);
        }
    }

    pub fn last_line(&self) -> String {
        let (actions, services) = self.most;
        let found = if self.broken.is_some() { "a violation" } else { "no violation" };
        format!(
            "tried {} lists of {} calls with {} rounds, and {} other states; at most {actions} \
             actions before quiet with {services} services; {found}",
            self.lists, self.calls, self.rounds, self.states
        )
    }
}

/// Searches until the time is over or something is broken.
pub fn search(seed: u64, time: Duration) -> Tried {
    let begun = Instant::now();
    let mut reported = begun;
    let mut tried = Tried::default();
    let mut index = 0;
    while begun.elapsed() < time && tried.broken.is_none() {
        let mut random = Random::new(seed, 100, index);
        index += 1;
        if random.one_in(4) {
            try_states(&mut random, &mut tried);
        } else {
            try_list(&mut random, &mut tried);
        }
        if reported.elapsed() >= Duration::from_secs(5) {
            reported = Instant::now();
            eprintln!("{} s: {}", begun.elapsed().as_secs(), tried.last_line());
        }
    }
    tried
}

fn load_given(set: &[Given]) -> Option<Table> {
    let names: Vec<&[u8]> = set.iter().map(|given| given.name.as_slice()).collect();
    let texts: Vec<Vec<u8>> = set.iter().map(|given| given.text.clone()).collect();
    let (bytes, positions) = lend(&names, &texts);
    let mut buffer = vec![0; 65_536];
    loader::load(&bytes, &positions, &mut buffer).ok().map(|set| set.table)
}

/// One list of calls: any, then often a stop all and rounds.
fn try_list(random: &mut Random, tried: &mut Tried) {
    let size = set_size(random);
    let zero_timeouts = random.one_in(4);
    let manner =
        Manner { odd_names: false, odd_times: false, unused_settings: false, zero_timeouts };
    let sketches = sketch_set(random, size, manner);
    let set: Vec<Given> = sketches.iter().map(plain_text).collect();
    let Some(table) = load_given(&set) else {
        return;
    };
    let mut list = List { random, watch: Watch::new(&table), calls: Vec::new() };
    let result = list.make_all();
    tried.lists += 1;
    tried.calls += list.calls.len() as u64;
    tried.rounds += list.watch.rounds_ended;
    tried.saw(list.watch.most_actions, table.count);
    if let Err(message) = result {
        tried.broken = Some(broken_scenario(&set, &list.calls, &message));
    }
}

/// A run with all the room there is.
const RUN: Call = Call::Run(256, 256);

/// A list of calls in the making: each call is chosen by looking at the state
/// as it stands, watched and kept.
struct List<'a> {
    random: &'a mut Random,
    watch: Watch<'a>,
    calls: Vec<Call>,
}

impl List<'_> {
    fn make(&mut self, call: Call) -> Result<(), String> {
        self.calls.push(call);
        self.watch.call(call)
    }

    /// Any calls, then often a stop all and as many rounds as bring all down.
    fn make_all(&mut self) -> Result<(), String> {
        if self.random.one_in(30) {
            let time = LAST_CLOCK - self.random.below(200_000);
            self.make(Call::Clock(time))?;
        }
        for _ in 0..self.random.between(5, 80) {
            self.any_call()?;
        }
        if self.random.one_in(5) {
            return Ok(());
        }
        self.make(Call::StopAll)?;
        let between = self.random.below(4);
        for _ in 0..=self.watch.table.count {
            self.round(between)?;
        }
        Ok(())
    }

    /// Any call, and sometimes a run after it.
    fn any_call(&mut self) -> Result<(), String> {
        let line = random_call(self.random, self.watch.table, &self.watch.state);
        if let Some(call) = Call::from_line(&line) {
            self.make(call)?;
        }
        if self.random.one_in(3) {
            self.make(RUN)?;
        }
        Ok(())
    }

    /// The parts of a round in order, each after at most this many other calls.
    fn round(&mut self, between: u64) -> Result<(), String> {
        self.calls_between(between)?;
        let time = past_every_deadline(self.random, self.watch.table, &self.watch.state);
        self.make(Call::Clock(time))?;
        self.calls_between(between)?;
        self.actions_to_quiet()?;
        self.calls_between(between)?;
        self.ends_of_killed()?;
        self.calls_between(between)?;
        self.actions_to_quiet()
    }

    fn calls_between(&mut self, most: u64) -> Result<(), String> {
        for _ in 0..self.random.below(most + 1) {
            let call = call_between(self.random, self.watch.table, &self.watch.state);
            self.make(call)?;
        }
        Ok(())
    }

    /// Actions to quiet, singly or by a run.
    fn actions_to_quiet(&mut self) -> Result<(), String> {
        if !self.random.one_in(3) {
            return self.make(RUN);
        }
        while first_fitting(self.watch.table, &self.watch.state).is_some() {
            self.make(Call::Next)?;
        }
        Ok(())
    }

    /// The ends of the processes that were sent a deadline's KILL, in any order.
    fn ends_of_killed(&mut self) -> Result<(), String> {
        let mut killed = self.watch.killed_and_live();
        self.random.shuffle(&mut killed);
        for service in killed {
            let good = self.random.one_in(2);
            self.make(Call::End(service as u64, good))?;
        }
        Ok(())
    }
}

/// Any call that is no accepted start.
fn call_between(random: &mut Random, table: &Table, state: &State) -> Call {
    loop {
        let line = random_call(random, table, state);
        match Call::from_line(&line) {
            Some(Call::Start(service)) if service < table.count => {}
            Some(Call::Clock(_)) if random.one_in(2) => {}
            Some(call) => return call,
            None => {}
        }
    }
}

/// A clock reading at or past every pending deadline, at most 2^48.
fn past_every_deadline(random: &mut Random, table: &Table, state: &State) -> u64 {
    let mut time = state.clock;
    for service in table.numbers() {
        if let Deadline::At(due) = state.records[service].deadline {
            time = time.max(due);
        }
    }
    if random.one_in(3) {
        time += random.below(3_000);
    }
    time.min(LAST_CLOCK)
}

/// The bound of 4n from states that no list of calls need reach, led towards
/// those with many actions before quiet.
fn try_states(random: &mut Random, tried: &mut Tried) {
    let mut builder = free_table(random);
    let Some(loaded) = builder.loaded() else {
        return;
    };
    let table = loaded.table.clone();
    let mut best = random_state(random, &table);
    let mut best_steps = 0;
    for _ in 0..random.between(1, 60) {
        let mut state = best.clone();
        if random.one_in(10) {
            state = random_state(random, &table);
        }
        for _ in 0..random.between(1, 3) {
            let service = random.below(table.count) as usize;
            let phase = *random.pick(&Phase::ALL);
            state.records[service] =
                random_record(random, &table.services[service], state.clock, phase, 1);
        }
        if ill_formed(&table, &state) {
            continue;
        }
        tried.states += 1;
        match steps_to_quiet(&table, &state) {
            None => {
                tried.broken = Some(broken_state(&mut builder, &table, &state));
                return;
            }
            Some(steps) if steps >= best_steps => {
                best = state;
                best_steps = steps;
            }
            Some(_) => {}
        }
    }
    tried.saw(best_steps, table.count);
}

fn broken_state(builder: &mut Builder, table: &Table, state: &State) -> Vec<u8> {
    builder.put_state(state, PLACES);
    let message = format!("% more than {} actions come before quiet\n", 4 * table.count);
    [message.as_bytes(), &builder.scenario, b"state\nrun\n"].concat()
}

/// The scenario that shows what is broken: its calls, and then the lines of
/// its texts, left out as far as it still shows it.
fn broken_scenario(set: &[Given], calls: &[Call], message: &str) -> Vec<u8> {
    let breaks = |set: &[Given], calls: &[Call]| {
        load_given(set).is_some_and(|table| broken_by(&table, calls).is_some())
    };
    let calls = reduce(calls, &mut |rest| breaks(set, rest));
    let mut set = set.to_vec();
    for place in 0..set.len() {
        let lines: Vec<Vec<u8>> =
            set[place].text.split_inclusive(|byte| *byte == b'\n').map(<[u8]>::to_vec).collect();
        let kept = reduce(&lines, &mut |rest| {
            let mut tried = set.clone();
            tried[place].text = rest.concat();
            breaks(&tried, &calls)
        });
        set[place].text = kept.concat();
    }
    let now = load_given(&set).and_then(|table| broken_by(&table, &calls));
    let mut builder = Builder::new();
    builder.push(&format!("% {}", now.as_deref().unwrap_or(message)));
    let mut random = Random::new(0, 0, 0);
    for given in &set {
        builder.service(&mut random, given);
    }
    builder.push("load 65536");
    for call in calls {
        builder.push(&call.line());
    }
    builder.scenario
}
