//! List 24 of paper 01: "24 is given exactly when". One function for each
//! clause; a clause is broken or it is not. Records and places past the last
//! service are not read.

use super::types::*;

/// A clause: what it forbids, and whether table and state break it.
pub struct Clause {
    pub name: &'static str,
    pub broken: fn(&Table, &State) -> bool,
}

/// Every clause but the first of the list ("more than 32 services"), which
/// must be kept before the others can be looked at.
pub const CLAUSES: [Clause; 21] = [
    Clause { name: "a dependency bit beyond the services", broken: dependency_beyond },
    Clause { name: "a dependency cycle", broken: dependency_cycle },
    Clause { name: "restart-delay outside its range", broken: restart_delay_outside },
    Clause { name: "restart-limit-interval outside its range", broken: interval_outside },
    Clause { name: "restart-limit-count outside its range", broken: limit_count_outside },
    Clause { name: "start-timeout outside its range", broken: start_timeout_outside },
    Clause { name: "stop-timeout outside its range", broken: stop_timeout_outside },
    Clause { name: "the clock past 2^48", broken: clock_past },
    Clause { name: "a last launch past the clock", broken: last_launch_past },
    Clause { name: "a window start past the clock", broken: window_start_past },
    Clause { name: "a deadline past 2^48 + 864,000,000", broken: deadline_past },
    Clause { name: "a not-before past 2^48 + 864,000,000", broken: not_before_past },
    Clause { name: "a count past 65,535", broken: count_past },
    Clause { name: "down or waiting, but live", broken: down_or_waiting_live },
    Clause { name: "down or waiting, but with a cause", broken: down_or_waiting_cause },
    Clause { name: "starting, but not scripted", broken: starting_not_scripted },
    Clause { name: "starting, but not live", broken: starting_not_live },
    Clause { name: "up and live, but no process", broken: up_live_no_process },
    Clause { name: "up with no cause, a process, but not live", broken: up_process_not_live },
    Clause { name: "ending, but not live", broken: ending_not_live },
    Clause { name: "ending, but with no cause", broken: ending_no_cause },
];

/// "more than 32 services".
pub fn too_many_services(table: &Table) -> bool {
    table.count > PLACES as u64
}

/// Whether list 24 gives 24.
pub fn ill_formed(table: &Table, state: &State) -> bool {
    too_many_services(table) || CLAUSES.iter().any(|clause| (clause.broken)(table, state))
}

fn any_service(table: &Table, says: impl Fn(&Service) -> bool) -> bool {
    table.numbers().any(|number| says(&table.services[number]))
}

fn any_record(table: &Table, state: &State, says: impl Fn(&Service, &Record) -> bool) -> bool {
    table.numbers().any(|number| says(&table.services[number], &state.records[number]))
}

fn dependency_beyond(table: &Table, _: &State) -> bool {
    any_service(table, |service| {
        (table.numbers().end..64).any(|number| service.depends_by_any_kind(number))
    })
}

fn dependency_cycle(table: &Table, _: &State) -> bool {
    has_cycle(table)
}

/// Whether the three kinds together have a cycle: services whose dependencies
/// have all been struck out are struck out, until none can be; what is left
/// over holds a cycle.
pub fn has_cycle(table: &Table) -> bool {
    let mut left = [false; PLACES];
    for number in table.numbers() {
        left[number] = true;
    }
    loop {
        let free = table.numbers().find(|number| {
            left[*number]
                && !table
                    .numbers()
                    .any(|other| left[other] && table.services[*number].depends_by_any_kind(other))
        });
        match free {
            Some(number) => left[number] = false,
            None => return left.contains(&true),
        }
    }
}

fn restart_delay_outside(table: &Table, _: &State) -> bool {
    any_service(table, |service| service.restart_delay > LONGEST_TIME)
}

fn interval_outside(table: &Table, _: &State) -> bool {
    any_service(table, |service| service.restart_limit_interval > LONGEST_TIME)
}

fn limit_count_outside(table: &Table, _: &State) -> bool {
    any_service(table, |service| service.restart_limit_count > LARGEST_COUNT)
}

fn start_timeout_outside(table: &Table, _: &State) -> bool {
    any_service(table, |service| service.start_timeout > LONGEST_TIME)
}

fn stop_timeout_outside(table: &Table, _: &State) -> bool {
    any_service(table, |service| service.stop_timeout > LONGEST_TIME)
}

fn clock_past(_: &Table, state: &State) -> bool {
    state.clock > LAST_CLOCK
}

fn last_launch_past(table: &Table, state: &State) -> bool {
    any_record(table, state, |_, record| record.last_launch > state.clock)
}

fn window_start_past(table: &Table, state: &State) -> bool {
    any_record(table, state, |_, record| record.window_start > state.clock)
}

fn deadline_past(table: &Table, state: &State) -> bool {
    any_record(table, state, |_, record| match record.deadline {
        Deadline::None => false,
        Deadline::At(time) => time > LAST_CLOCK + LONGEST_TIME,
    })
}

fn not_before_past(table: &Table, state: &State) -> bool {
    any_record(table, state, |_, record| record.not_before > LAST_CLOCK + LONGEST_TIME)
}

fn count_past(table: &Table, state: &State) -> bool {
    any_record(table, state, |_, record| record.restarts > LARGEST_COUNT)
}

fn down_or_waiting(record: &Record) -> bool {
    record.phase == Phase::Down || record.phase == Phase::Waiting
}

fn down_or_waiting_live(table: &Table, state: &State) -> bool {
    any_record(table, state, |_, record| down_or_waiting(record) && record.live)
}

fn down_or_waiting_cause(table: &Table, state: &State) -> bool {
    any_record(table, state, |_, record| down_or_waiting(record) && record.cause != Cause::None)
}

fn starting_not_scripted(table: &Table, state: &State) -> bool {
    any_record(table, state, |service, record| {
        record.phase == Phase::Starting && service.service_type != ServiceType::Scripted
    })
}

fn starting_not_live(table: &Table, state: &State) -> bool {
    any_record(table, state, |_, record| record.phase == Phase::Starting && !record.live)
}

fn up_live_no_process(table: &Table, state: &State) -> bool {
    any_record(table, state, |service, record| {
        record.phase == Phase::Up && record.live && service.service_type != ServiceType::Process
    })
}

fn up_process_not_live(table: &Table, state: &State) -> bool {
    any_record(table, state, |service, record| {
        record.phase == Phase::Up
            && record.cause == Cause::None
            && service.service_type == ServiceType::Process
            && !record.live
    })
}

fn ending_not_live(table: &Table, state: &State) -> bool {
    any_record(table, state, |_, record| record.phase == Phase::Ending && !record.live)
}

fn ending_no_cause(table: &Table, state: &State) -> bool {
    any_record(table, state, |_, record| {
        record.phase == Phase::Ending && record.cause == Cause::None
    })
}
