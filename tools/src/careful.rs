//! A careful version of the engine for the benchmark alone: dependencies are
//! bit sets, list 24 is judged in one pass, and the rules are decided on sets
//! that one pass over the services makes. A test holds it equal to the plain
//! engine, whose state and answers it shares.

use second::engine::types::{
    Action, Cause, Deadline, Phase, Record, ServiceSet, ServiceType, Signal, State, LARGEST_COUNT,
    LAST_CLOCK, LONGEST_TIME, PLACES,
};
use second::engine::{self, calls::Refused};

/// The settings of one service that the engine reads; sets as bits.
#[derive(Clone, Copy, Debug)]
struct Settings {
    service_type: ServiceType,
    restart: bool,
    has_stop_command: bool,
    term_signal: Signal,
    restart_delay: u64,
    restart_limit_interval: u64,
    restart_limit_count: u64,
    start_timeout: u64,
    stop_timeout: u64,
    hard: u64,
    milestone: u64,
    soft: u64,
}

impl Settings {
    fn of(service: &engine::Service) -> Settings {
        Settings {
            service_type: service.service_type,
            restart: service.restart,
            has_stop_command: service.stop_command_tokens != 0,
            term_signal: service.term_signal,
            restart_delay: service.restart_delay,
            restart_limit_interval: service.restart_limit_interval,
            restart_limit_count: service.restart_limit_count,
            start_timeout: service.start_timeout,
            stop_timeout: service.stop_timeout,
            hard: bits_of(&service.depends_on),
            milestone: bits_of(&service.depends_ms),
            soft: bits_of(&service.waits_for),
        }
    }

    /// Hard and depends-ms.
    fn needs(&self) -> u64 {
        self.hard | self.milestone
    }

    /// The three kinds together.
    fn links(&self) -> u64 {
        self.hard | self.milestone | self.soft
    }
}

fn bits_of(set: &ServiceSet) -> u64 {
    set.members().into_iter().fold(0, |bits, member| bits | 1 << member)
}

/// The table of the careful engine.
#[derive(Clone, Debug)]
pub struct Table {
    count: u64,
    services: [Settings; PLACES],
}

impl Table {
    /// The same table as the plain engine's.
    pub fn of(plain: &engine::Table) -> Table {
        Table { count: plain.count, services: plain.services.each_ref().map(Settings::of) }
    }

    /// The services, where list 24's first clause is kept.
    fn services(&self) -> &[Settings] {
        &self.services[..(self.count as usize).min(PLACES)]
    }
}

/// The members of a set of bits, lowest first.
struct Members(u64);

impl Iterator for Members {
    type Item = usize;

    fn next(&mut self) -> Option<usize> {
        let lowest = lowest_of(self.0)?;
        self.0 &= self.0 - 1;
        Some(lowest)
    }
}

fn lowest_of(set: u64) -> Option<usize> {
    if set == 0 {
        None
    } else {
        Some(set.trailing_zeros() as usize)
    }
}

fn bit(holds: bool, service: usize) -> u64 {
    u64::from(holds) << service
}

fn kept(holds: bool, set: u64) -> u64 {
    if holds {
        set
    } else {
        0
    }
}

// List 24, in one pass over the services, and the cycle by peeling.

fn passes_list_24(table: &Table, state: &State) -> Result<(), Refused> {
    if table.count > PLACES as u64 || state.clock > LAST_CLOCK {
        return Err(24);
    }
    let beyond = !((1u64 << table.count) - 1);
    let passes = table
        .services()
        .iter()
        .zip(&state.records)
        .all(|(service, record)| place_passes(service, record, state.clock, beyond));
    if passes && !has_cycle(table.services()) {
        Ok(())
    } else {
        Err(24)
    }
}

fn place_passes(service: &Settings, record: &Record, clock: u64, beyond: u64) -> bool {
    let deadline = match record.deadline {
        Deadline::None => 0,
        Deadline::At(time) => time,
    };
    let last_time = LAST_CLOCK + LONGEST_TIME;
    (service.links() & beyond == 0)
        & (service.restart_delay <= LONGEST_TIME)
        & (service.restart_limit_interval <= LONGEST_TIME)
        & (service.restart_limit_count <= LARGEST_COUNT)
        & (service.start_timeout <= LONGEST_TIME)
        & (service.stop_timeout <= LONGEST_TIME)
        & (record.last_launch <= clock)
        & (record.window_start <= clock)
        & (deadline <= last_time)
        & (record.not_before <= last_time)
        & (record.restarts <= LARGEST_COUNT)
        & shape_passes(service.service_type, record)
}

fn shape_passes(service_type: ServiceType, record: &Record) -> bool {
    let no_cause = record.cause == Cause::None;
    let process = service_type == ServiceType::Process;
    match record.phase {
        Phase::Down | Phase::Waiting => !record.live & no_cause,
        Phase::Starting => (service_type == ServiceType::Scripted) & record.live,
        Phase::Up => (!record.live | process) & (!(no_cause & process) | record.live),
        Phase::Ending => record.live & !no_cause,
    }
}

/// Services whose dependencies have all been peeled are peeled, until all are
/// or a turn peels none.
fn has_cycle(services: &[Settings]) -> bool {
    let mut peeled = 0u64;
    loop {
        let before = peeled;
        let mut all = true;
        for (number, service) in services.iter().enumerate() {
            let free = service.links() & !peeled == 0;
            peeled |= bit(free, number);
            all &= free;
        }
        if all {
            return false;
        }
        if peeled == before {
            return true;
        }
    }
}

// The events.

pub fn start(table: &Table, state: &mut State, service: u64) -> Result<(), Refused> {
    passes_list_24(table, state)?;
    let service = service_in_set(table, service)?;
    state.records[service].wanted = true;
    for number in Members(reached_from(table.services(), service)) {
        let record = &mut state.records[number];
        record.aside = false;
        record.not_before = 0;
        if matches!(record.cause, Cause::User | Cause::Failed) {
            record.cause = Cause::Released;
        }
    }
    Ok(())
}

/// The service and all it reaches by any kind.
fn reached_from(services: &[Settings], service: usize) -> u64 {
    let mut reached = 1u64 << service;
    let mut open = reached;
    while let Some(number) = lowest_of(open) {
        open &= open - 1;
        let further = services[number].links() & !reached;
        reached |= further;
        open |= further;
    }
    reached
}

pub fn stop(table: &Table, state: &mut State, service: u64) -> Result<(), Refused> {
    passes_list_24(table, state)?;
    let service = service_in_set(table, service)?;
    stop_record(&mut state.records[service]);
    Ok(())
}

pub fn stop_all(table: &Table, state: &mut State) -> Result<(), Refused> {
    passes_list_24(table, state)?;
    let count = table.services().len();
    state.records[..count].iter_mut().for_each(stop_record);
    Ok(())
}

fn stop_record(record: &mut Record) {
    record.wanted = false;
    if matches!(record.phase, Phase::Down | Phase::Waiting) {
        record.phase = Phase::Down;
        record.aside = true;
    } else {
        record.cause = Cause::User;
    }
}

pub fn end(table: &Table, state: &mut State, service: u64, good: bool) -> Result<(), Refused> {
    passes_list_24(table, state)?;
    let service = service_in_set(table, service)?;
    let clock = state.clock;
    let record = &mut state.records[service];
    if !record.live {
        return Err(21);
    }
    record.live = false;
    let settings = &table.services[service];
    match record.phase {
        Phase::Starting if good => {
            record.phase = Phase::Up;
            record.deadline = Deadline::None;
        }
        Phase::Starting => settle(settings, record, clock, Cause::User),
        Phase::Up => {
            if record.cause == Cause::None {
                record.cause = Cause::Fell;
            }
        }
        Phase::Ending => settle(settings, record, clock, record.cause),
        Phase::Down | Phase::Waiting => {}
    }
    Ok(())
}

fn settle(settings: &Settings, record: &mut Record, clock: u64, cause: Cause) {
    record.phase = Phase::Down;
    record.cause = Cause::None;
    record.deadline = Deadline::None;
    record.killed = false;
    match cause {
        Cause::User | Cause::Failed => set_aside(record),
        Cause::Fell => settle_fall(settings, record, clock),
        Cause::Released | Cause::None => {}
    }
}

fn settle_fall(settings: &Settings, record: &mut Record, clock: u64) {
    if clock - record.window_start >= settings.restart_limit_interval {
        record.window_start = clock;
        record.restarts = 0;
    }
    let limit = settings.restart_limit_count;
    if limit != 0 && record.restarts >= limit {
        set_aside(record);
        return;
    }
    record.restarts += u64::from(limit != 0);
    record.not_before = record.last_launch + settings.restart_delay;
    record.wanted &= settings.restart;
}

fn set_aside(record: &mut Record) {
    record.wanted = false;
    record.aside = true;
}

pub fn clock(table: &Table, state: &mut State, time: u64) -> Result<(), Refused> {
    passes_list_24(table, state)?;
    if time < state.clock {
        return Err(22);
    }
    if time > LAST_CLOCK {
        return Err(23);
    }
    state.clock = time;
    Ok(())
}

fn service_in_set(table: &Table, service: u64) -> Result<usize, Refused> {
    if service < table.count {
        Ok(service as usize)
    } else {
        Err(20)
    }
}

// The rules, decided on sets of services.

/// Where the services stand, as sets.
#[derive(Clone, Copy, Default)]
struct Standing {
    /// Starting or up, no cause.
    running: u64,
    /// The hard dependencies of the running.
    trusted: u64,
    waiting: u64,
    /// Waiting, and the clock is at least not-before.
    due: u64,
    /// Up with a cause.
    closing: u64,
    /// With nothing to end, if it is closing.
    over: u64,
    /// Down and not aside.
    idle: u64,
    wanted: u64,
    /// At or past a deadline that rule 8 asks about.
    expired: u64,
    /// Not up with no cause.
    lost: u64,
    /// With the cause user.
    user: u64,
    /// Down and aside.
    aside: u64,
    /// The hard dependencies of the starting, up or ending: the blocked.
    held: u64,
    /// The dependencies of those that are not down.
    needed: u64,
    /// The dependencies of the waiting.
    called: u64,
}

fn standing(table: &Table, state: &State) -> Standing {
    let mut sets = Standing::default();
    for (number, (service, record)) in table.services().iter().zip(&state.records).enumerate() {
        let no_cause = record.cause == Cause::None;
        let down = record.phase == Phase::Down;
        let waiting = record.phase == Phase::Waiting;
        let starting = record.phase == Phase::Starting;
        let up = record.phase == Phase::Up;
        let ending = record.phase == Phase::Ending;
        let running = (starting | up) & no_cause;
        let late = match record.deadline {
            Deadline::None => false,
            Deadline::At(time) => state.clock >= time,
        };
        let nothing_to_end = match service.service_type {
            ServiceType::Process => !record.live,
            ServiceType::Internal => true,
            ServiceType::Scripted => !service.has_stop_command,
        };
        sets.running |= bit(running, number);
        sets.trusted |= kept(running, service.hard);
        sets.waiting |= bit(waiting, number);
        sets.due |= bit(waiting & (state.clock >= record.not_before), number);
        sets.closing |= bit(up & !no_cause, number);
        sets.over |= bit(nothing_to_end, number);
        sets.idle |= bit(down & !record.aside, number);
        sets.wanted |= bit(record.wanted, number);
        sets.expired |= bit(late & (starting | (ending & !record.killed)), number);
        sets.lost |= bit(!(up & no_cause), number);
        sets.user |= bit(record.cause == Cause::User, number);
        sets.aside |= bit(down & record.aside, number);
        sets.held |= kept(starting | up | ending, service.hard);
        sets.needed |= kept(!down, service.links());
        sets.called |= kept(waiting, service.links());
    }
    sets
}

/// One step of the rules, of a table and a state that list 24 has passed.
fn step(table: &Table, state: &mut State) -> Action {
    let sets = standing(table, state);
    let services = &table.services;
    if sets.trusted & sets.lost != 0 {
        let loses = |service: &usize| services[*service].hard & sets.lost != 0;
        if let Some(service) = Members(sets.running).find(loses) {
            let by_user = services[service].hard & sets.lost & sets.user != 0;
            state.records[service].cause = if by_user { Cause::User } else { Cause::Fell };
            return Action::Moved(service);
        }
    }
    if sets.called & sets.aside != 0 {
        let hopeless = |service: &usize| services[*service].needs() & sets.aside != 0;
        if let Some(service) = Members(sets.waiting).find(hopeless) {
            let record = &mut state.records[service];
            record.phase = Phase::Down;
            set_aside(record);
            return Action::Moved(service);
        }
    }
    let free = sets.closing & !sets.held;
    if let Some(service) = lowest_of(free & sets.over) {
        let record = &mut state.records[service];
        settle(&services[service], record, state.clock, record.cause);
        return Action::Moved(service);
    }
    if let Some(service) = lowest_of(sets.idle & (sets.wanted | sets.called)) {
        state.records[service].phase = Phase::Waiting;
        return Action::Moved(service);
    }
    let unneeded = (sets.running | sets.waiting) & !(sets.wanted | sets.needed);
    if let Some(service) = lowest_of(unneeded) {
        let record = &mut state.records[service];
        if record.phase == Phase::Waiting {
            record.phase = Phase::Down;
        } else {
            record.cause = Cause::Released;
        }
        return Action::Moved(service);
    }
    let unready = sets.lost & !sets.aside;
    let allowed = |service: &usize| {
        let settings = &services[*service];
        (settings.needs() & sets.lost) | (settings.soft & unready) == 0
    };
    if let Some(service) = Members(sets.due).find(allowed) {
        return launch(&services[service], &mut state.records[service], state.clock, service);
    }
    if let Some(service) = lowest_of(free) {
        return bring_down(&services[service], &mut state.records[service], state.clock, service);
    }
    if let Some(service) = lowest_of(sets.expired) {
        return expire(&services[service], &mut state.records[service], state.clock, service);
    }
    Action::Quiet
}

fn deadline_after(clock: u64, timeout: u64) -> Deadline {
    if timeout == 0 {
        Deadline::None
    } else {
        Deadline::At(clock + timeout)
    }
}

fn launch(settings: &Settings, record: &mut Record, clock: u64, service: usize) -> Action {
    record.last_launch = clock;
    match settings.service_type {
        ServiceType::Internal => {
            record.phase = Phase::Up;
            Action::Moved(service)
        }
        ServiceType::Process => {
            record.phase = Phase::Up;
            record.live = true;
            Action::Launch(service)
        }
        ServiceType::Scripted => {
            record.phase = Phase::Starting;
            record.live = true;
            record.deadline = deadline_after(clock, settings.start_timeout);
            Action::Launch(service)
        }
    }
}

fn bring_down(settings: &Settings, record: &mut Record, clock: u64, service: usize) -> Action {
    record.phase = Phase::Ending;
    record.live = true;
    record.deadline = deadline_after(clock, settings.stop_timeout);
    match (settings.service_type, settings.term_signal) {
        (ServiceType::Scripted, _) => Action::StopCommand(service),
        (_, Signal::None) => Action::Moved(service),
        (_, signal) => Action::Signal(service, signal),
    }
}

fn expire(settings: &Settings, record: &mut Record, clock: u64, service: usize) -> Action {
    if record.phase == Phase::Starting {
        record.phase = Phase::Ending;
        if record.cause != Cause::User {
            record.cause = Cause::Failed;
        }
        record.deadline = deadline_after(clock, settings.stop_timeout);
        Action::Signal(service, Signal::Int)
    } else {
        record.killed = true;
        Action::Signal(service, Signal::Kill)
    }
}

// The calls on the rules.

pub fn next_action(table: &Table, state: &mut State) -> Result<Action, Refused> {
    passes_list_24(table, state)?;
    Ok(step(table, state))
}

pub fn run_to_quiet(
    table: &Table,
    state: &mut State,
    services: &mut [u64],
    actions: &mut [u64],
) -> Result<usize, Refused> {
    passes_list_24(table, state)?;
    let enough = 4 * table.services().len();
    if services.len() < enough || actions.len() < enough {
        return Err(25);
    }
    let mut handed_out = 0;
    loop {
        let (service, number) = match step(table, state) {
            Action::Quiet => return Ok(handed_out),
            Action::Moved(service) => (service, 0),
            Action::Launch(service) => (service, 1),
            Action::StopCommand(service) => (service, 2),
            Action::Signal(service, signal) => (service, 3 + signal as u64),
        };
        services[handed_out] = service as u64;
        actions[handed_out] = number;
        handed_out += 1;
    }
}

pub fn query(table: &Table, state: &State) -> Result<Option<u64>, Refused> {
    passes_list_24(table, state)?;
    let mut earliest = u64::MAX;
    for record in &state.records[..table.services().len()] {
        let deadline = match record.deadline {
            Deadline::None => 0,
            Deadline::At(time) => time,
        };
        for time in [deadline, record.not_before] {
            if time > state.clock && time < earliest {
                earliest = time;
            }
        }
    }
    Ok(if earliest == u64::MAX { None } else { Some(earliest) })
}
