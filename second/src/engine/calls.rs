//! The public calls with their refusals (paper 01: "Event checks: 24, 20, 21;
//! clock 24, 22, 23; next action and query 24; run to quiet 24, 25"). A refused
//! call leaves the state and everything lent as it was.

use super::events;
use super::list24;
use super::rules;
use super::types::*;

/// A refusal's number from the table.
pub type Refused = u64;

/// 24 where list 24 gives it.
pub fn refused_by_list_24(table: &Table, state: &State) -> Result<(), Refused> {
    if list24::ill_formed(table, state) {
        Err(24)
    } else {
        Ok(())
    }
}

/// 20 for a service number not in the set.
fn service_in_set(table: &Table, service: u64) -> Result<usize, Refused> {
    if service < table.count {
        Ok(service as usize)
    } else {
        Err(20)
    }
}

pub fn start(table: &Table, state: &mut State, service: u64) -> Result<(), Refused> {
    refused_by_list_24(table, state)?;
    let service = service_in_set(table, service)?;
    events::start_service(table, state, service);
    Ok(())
}

pub fn stop(table: &Table, state: &mut State, service: u64) -> Result<(), Refused> {
    refused_by_list_24(table, state)?;
    let service = service_in_set(table, service)?;
    events::stop_service(state, service);
    Ok(())
}

pub fn stop_all(table: &Table, state: &mut State) -> Result<(), Refused> {
    refused_by_list_24(table, state)?;
    events::stop_every_service(table, state);
    Ok(())
}

pub fn end(table: &Table, state: &mut State, service: u64, good: bool) -> Result<(), Refused> {
    refused_by_list_24(table, state)?;
    let service = service_in_set(table, service)?;
    if !state.records[service].live {
        return Err(21);
    }
    events::end_process(table, state, service, good);
    Ok(())
}

/// A clock equal to the last is accepted.
pub fn clock(table: &Table, state: &mut State, time: u64) -> Result<(), Refused> {
    refused_by_list_24(table, state)?;
    if time < state.clock {
        return Err(22);
    }
    if time > LAST_CLOCK {
        return Err(23);
    }
    state.clock = time;
    Ok(())
}

pub fn next_action(table: &Table, state: &mut State) -> Result<Action, Refused> {
    refused_by_list_24(table, state)?;
    Ok(rules::step(table, state))
}

/// Takes actions to quiet, fills the lent slices with service and action, and
/// reports the number of actions handed out. Places past it are untouched.
pub fn run_to_quiet(
    table: &Table,
    state: &mut State,
    services: &mut [u64],
    actions: &mut [u64],
) -> Result<usize, Refused> {
    refused_by_list_24(table, state)?;
    let enough = 4 * table.count as usize;
    if services.len() < enough || actions.len() < enough {
        return Err(25);
    }
    let mut handed_out = 0;
    loop {
        let action = rules::step(table, state);
        let (Some(service), Some(number)) = (action.service(), action.number()) else {
            return Ok(handed_out);
        };
        services[handed_out] = service as u64;
        actions[handed_out] = number;
        handed_out += 1;
    }
}

/// The earliest deadline or not-before of any service above the clock.
pub fn query(table: &Table, state: &State) -> Result<Option<u64>, Refused> {
    refused_by_list_24(table, state)?;
    let mut earliest: Option<u64> = None;
    for service in table.numbers() {
        let record = &state.records[service];
        let mut times = vec![record.not_before];
        if let Deadline::At(time) = record.deadline {
            times.push(time);
        }
        for time in times {
            if time > state.clock && earliest.is_none_or(|best| time < best) {
                earliest = Some(time);
            }
        }
    }
    Ok(earliest)
}
