//! The rules of the next action (paper 01, "Next action"): the first rule with
//! any service it fits, lowest service first. Each rule is a question, whether
//! it fits a service, and a deed that gives the action.

use super::events::settle;
use super::types::*;

/// A rule: whether it fits a service, and what it does to it.
pub struct Rule {
    pub number: u64,
    pub fits: fn(&Table, &State, usize) -> bool,
    pub apply: fn(&Table, &mut State, usize) -> Action,
}

/// Rules 1 to 8 in their order; rule 9 is quiet.
pub const RULES: [Rule; 8] = [
    Rule { number: 1, fits: lost_dependency_fits, apply: lost_dependency },
    Rule { number: 2, fits: hopeless_fits, apply: hopeless },
    Rule { number: 3, fits: nothing_to_end_fits, apply: nothing_to_end },
    Rule { number: 4, fits: wake_fits, apply: wake },
    Rule { number: 5, fits: not_needed_fits, apply: not_needed },
    Rule { number: 6, fits: launch_fits, apply: launch },
    Rule { number: 7, fits: bring_down_fits, apply: bring_down },
    Rule { number: 8, fits: overdue_fits, apply: overdue },
];

/// The first rule with any service it fits, and the lowest such service.
pub fn first_fitting(table: &Table, state: &State) -> Option<(&'static Rule, usize)> {
    for rule in &RULES {
        for service in table.numbers() {
            if (rule.fits)(table, state, service) {
                return Some((rule, service));
            }
        }
    }
    None
}

/// One step of the rules; quiet where none fits.
pub fn step(table: &Table, state: &mut State) -> Action {
    match first_fitting(table, state) {
        Some((rule, service)) => (rule.apply)(table, state, service),
        None => Action::Quiet,
    }
}

// What the rules ask of single services.

fn up_without_cause(record: &Record) -> bool {
    record.phase == Phase::Up && record.cause == Cause::None
}

/// "Closing" is up with a cause.
fn closing(record: &Record) -> bool {
    record.phase == Phase::Up && record.cause != Cause::None
}

fn down_and_aside(record: &Record) -> bool {
    record.phase == Phase::Down && record.aside
}

/// Blocked while a hard dependent is starting, up or ending.
fn blocked(table: &Table, state: &State, service: usize) -> bool {
    table.numbers().any(|dependent| {
        table.services[dependent].depends_on.holds[service]
            && matches!(state.records[dependent].phase, Phase::Starting | Phase::Up | Phase::Ending)
    })
}

/// Needed if wanted or if any dependent of any kind is not down.
fn needed(table: &Table, state: &State, service: usize) -> bool {
    state.records[service].wanted
        || table.numbers().any(|dependent| {
            table.services[dependent].depends_by_any_kind(service)
                && state.records[dependent].phase != Phase::Down
        })
}

fn at_or_past_deadline(state: &State, service: usize) -> bool {
    match state.records[service].deadline {
        Deadline::None => false,
        Deadline::At(time) => state.clock >= time,
    }
}

/// "Deadline = clock + timeout; none if 0."
fn deadline_after(clock: u64, timeout: u64) -> Deadline {
    if timeout == 0 {
        Deadline::None
    } else {
        Deadline::At(clock + timeout)
    }
}

// Rule 1. Starting or up, no cause, a hard dependency not (up with no cause):
// cause user if one such has user, else fell. Moved.

fn lost_dependencies(table: &Table, state: &State, service: usize) -> Vec<usize> {
    let is_lost = |dependency: &usize| {
        table.services[service].depends_on.holds[*dependency]
            && !up_without_cause(&state.records[*dependency])
    };
    table.numbers().filter(is_lost).collect()
}

fn lost_dependency_fits(table: &Table, state: &State, service: usize) -> bool {
    let record = &state.records[service];
    (record.phase == Phase::Starting || record.phase == Phase::Up)
        && record.cause == Cause::None
        && !lost_dependencies(table, state, service).is_empty()
}

fn lost_dependency(table: &Table, state: &mut State, service: usize) -> Action {
    let by_user = lost_dependencies(table, state, service)
        .into_iter()
        .any(|dependency| state.records[dependency].cause == Cause::User);
    state.records[service].cause = if by_user { Cause::User } else { Cause::Fell };
    Action::Moved(service)
}

// Rule 2. Waiting, a hard or depends-ms dependency down and aside: down,
// aside, wanted off. Moved.

fn hopeless_fits(table: &Table, state: &State, service: usize) -> bool {
    let settings = &table.services[service];
    state.records[service].phase == Phase::Waiting
        && table.numbers().any(|dependency| {
            (settings.depends_on.holds[dependency] || settings.depends_ms.holds[dependency])
                && down_and_aside(&state.records[dependency])
        })
}

fn hopeless(_: &Table, state: &mut State, service: usize) -> Action {
    let record = &mut state.records[service];
    record.phase = Phase::Down;
    record.aside = true;
    record.wanted = false;
    Action::Moved(service)
}

// Rule 3. Closing, unblocked, nothing to end (dead process, internal, scripted
// without stop-command): settle. Moved.

fn nothing_to_end_fits(table: &Table, state: &State, service: usize) -> bool {
    let settings = &table.services[service];
    let nothing = match settings.service_type {
        ServiceType::Process => !state.records[service].live,
        ServiceType::Internal => true,
        ServiceType::Scripted => settings.stop_command_tokens == 0,
    };
    closing(&state.records[service]) && !blocked(table, state, service) && nothing
}

fn nothing_to_end(table: &Table, state: &mut State, service: usize) -> Action {
    settle(table, state, service);
    Action::Moved(service)
}

// Rule 4. Down, not aside, and wanted or with a waiting dependent of any kind:
// waiting. Moved.

fn wake_fits(table: &Table, state: &State, service: usize) -> bool {
    let record = &state.records[service];
    let awaited = table.numbers().any(|dependent| {
        table.services[dependent].depends_by_any_kind(service)
            && state.records[dependent].phase == Phase::Waiting
    });
    record.phase == Phase::Down && !record.aside && (record.wanted || awaited)
}

fn wake(_: &Table, state: &mut State, service: usize) -> Action {
    state.records[service].phase = Phase::Waiting;
    Action::Moved(service)
}

// Rule 5. Waiting, starting or up, no cause, not needed: waiting goes down;
// else cause released. Moved.

fn not_needed_fits(table: &Table, state: &State, service: usize) -> bool {
    let record = &state.records[service];
    matches!(record.phase, Phase::Waiting | Phase::Starting | Phase::Up)
        && record.cause == Cause::None
        && !needed(table, state, service)
}

fn not_needed(_: &Table, state: &mut State, service: usize) -> Action {
    let record = &mut state.records[service];
    if record.phase == Phase::Waiting {
        record.phase = Phase::Down;
    } else {
        record.cause = Cause::Released;
    }
    Action::Moved(service)
}

// Rule 6. Waiting, clock at least not-before, each hard and depends-ms
// dependency up with no cause, each waits-for one that or down and aside: last
// launch = clock. Internal: up, moved. Process: up, live, launch. Scripted:
// starting, live, launch, start deadline.

fn launch_fits(table: &Table, state: &State, service: usize) -> bool {
    let settings = &table.services[service];
    let record = &state.records[service];
    let dependencies_allow = table.numbers().all(|dependency| {
        let other = &state.records[dependency];
        let must_be_up =
            settings.depends_on.holds[dependency] || settings.depends_ms.holds[dependency];
        let awaited = settings.waits_for.holds[dependency];
        (!must_be_up || up_without_cause(other))
            && (!awaited || up_without_cause(other) || down_and_aside(other))
    });
    record.phase == Phase::Waiting && state.clock >= record.not_before && dependencies_allow
}

fn launch(table: &Table, state: &mut State, service: usize) -> Action {
    let settings = &table.services[service];
    let clock = state.clock;
    let record = &mut state.records[service];
    record.last_launch = clock;
    match settings.service_type {
        ServiceType::Internal => {
            record.phase = Phase::Up;
            Action::Moved(service)
        }
        ServiceType::Process => {
            record.phase = Phase::Up;
            record.live = true;
            Action::Launch(service)
        }
        ServiceType::Scripted => {
            record.phase = Phase::Starting;
            record.live = true;
            record.deadline = deadline_after(clock, settings.start_timeout);
            Action::Launch(service)
        }
    }
}

// Rule 7. Closing, unblocked: process, its term signal; scripted, run
// stop-command; ending, live, stop deadline. (Signal none: moved.) Whatever
// has nothing to end was taken by rule 3.

fn bring_down_fits(table: &Table, state: &State, service: usize) -> bool {
    closing(&state.records[service]) && !blocked(table, state, service)
}

fn bring_down(table: &Table, state: &mut State, service: usize) -> Action {
    let settings = &table.services[service];
    let clock = state.clock;
    let record = &mut state.records[service];
    record.phase = Phase::Ending;
    record.live = true;
    record.deadline = deadline_after(clock, settings.stop_timeout);
    match settings.service_type {
        ServiceType::Scripted => Action::StopCommand(service),
        ServiceType::Process | ServiceType::Internal => match settings.term_signal {
            Signal::None => Action::Moved(service),
            signal => Action::Signal(service, signal),
        },
    }
}

// Rule 8. Starting at or past its deadline: INT; ending, cause failed unless
// user, stop deadline. Ending at or past its deadline, not killed: KILL,
// killed.

fn overdue_fits(_: &Table, state: &State, service: usize) -> bool {
    let record = &state.records[service];
    at_or_past_deadline(state, service)
        && (record.phase == Phase::Starting || (record.phase == Phase::Ending && !record.killed))
}

fn overdue(table: &Table, state: &mut State, service: usize) -> Action {
    let settings = &table.services[service];
    let clock = state.clock;
    let record = &mut state.records[service];
    if record.phase == Phase::Starting {
        record.phase = Phase::Ending;
        if record.cause != Cause::User {
            record.cause = Cause::Failed;
        }
        record.deadline = deadline_after(clock, settings.stop_timeout);
        Action::Signal(service, Signal::Int)
    } else {
        record.killed = true;
        Action::Signal(service, Signal::Kill)
    }
}
