//! The events of paper 01 and settling. Each works on a table and state that
//! list 24 has passed and on a service that is in the set.

use super::types::*;

/// "start s: s wanted; for s and all it reaches by any kind, aside off,
/// not-before 0, cause user or failed becomes released."
pub fn start_service(table: &Table, state: &mut State, service: usize) {
    state.records[service].wanted = true;
    let reached = reached_by_any_kind(table, service);
    for number in table.numbers() {
        if reached[number] {
            let record = &mut state.records[number];
            record.aside = false;
            record.not_before = 0;
            if record.cause == Cause::User || record.cause == Cause::Failed {
                record.cause = Cause::Released;
            }
        }
    }
}

/// The service itself and all it reaches by dependencies of any kind.
fn reached_by_any_kind(table: &Table, service: usize) -> [bool; PLACES] {
    let mut reached = [false; PLACES];
    reached[service] = true;
    loop {
        let further = table.numbers().find(|number| {
            !reached[*number]
                && table.numbers().any(|dependent| {
                    reached[dependent] && table.services[dependent].depends_by_any_kind(*number)
                })
        });
        match further {
            Some(number) => reached[number] = true,
            None => return reached,
        }
    }
}

/// "stop s: wanted off; down or waiting gives down and aside; else cause user."
pub fn stop_service(state: &mut State, service: usize) {
    let record = &mut state.records[service];
    record.wanted = false;
    if record.phase == Phase::Down || record.phase == Phase::Waiting {
        record.phase = Phase::Down;
        record.aside = true;
    } else {
        record.cause = Cause::User;
    }
}

/// "Stop all: stop for each."
pub fn stop_every_service(table: &Table, state: &mut State) {
    for number in table.numbers() {
        stop_service(state, number);
    }
}

/// "end of s, good or bad: live off. Starting: good gives up (no deadline,
/// cause kept), bad gives down with cause user's settling. Up: a cause of none
/// becomes fell. Ending: settle (good or bad alike)."
pub fn end_process(table: &Table, state: &mut State, service: usize, good: bool) {
    state.records[service].live = false;
    match state.records[service].phase {
        Phase::Starting if good => {
            state.records[service].phase = Phase::Up;
            state.records[service].deadline = Deadline::None;
        }
        Phase::Starting => settle_for(table, state, service, Cause::User),
        Phase::Up => {
            if state.records[service].cause == Cause::None {
                state.records[service].cause = Cause::Fell;
            }
        }
        Phase::Ending => settle(table, state, service),
        Phase::Down | Phase::Waiting => {}
    }
}

/// Settle by the cause the service has.
pub fn settle(table: &Table, state: &mut State, service: usize) {
    let cause = state.records[service].cause;
    settle_for(table, state, service, cause);
}

/// "Settle: down, no cause, deadline none, killed off." Then by the cause.
fn settle_for(table: &Table, state: &mut State, number: usize, cause: Cause) {
    let clock = state.clock;
    let record = &mut state.records[number];
    record.phase = Phase::Down;
    record.cause = Cause::None;
    record.deadline = Deadline::None;
    record.killed = false;
    match cause {
        Cause::User | Cause::Failed => {
            record.wanted = false;
            record.aside = true;
        }
        Cause::Fell => settle_fall(&table.services[number], record, clock),
        Cause::Released | Cause::None => {}
    }
}

/// The settling of a fall: the window, the limit, the count, the delay.
fn settle_fall(service: &Service, record: &mut Record, clock: u64) {
    if clock - record.window_start >= service.restart_limit_interval {
        record.window_start = clock;
        record.restarts = 0;
    }
    let limit = service.restart_limit_count;
    if limit != 0 && record.restarts >= limit {
        record.wanted = false;
        record.aside = true;
    } else {
        if limit != 0 {
            record.restarts += 1;
        }
        record.not_before = record.last_launch + service.restart_delay;
        if !service.restart {
            record.wanted = false;
        }
    }
}
