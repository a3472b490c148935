//! Cases of the kind `scenarios` with `set` and `table` lines: states that no
//! list of calls reaches, and each clause of list 24 just inside and just
//! outside its bound.

use super::builder::Builder;
use super::scenarios::{calls_after, load_set, random_call};
use crate::random::Random;
use second::engine::*;

/// A state that list 24 passes, of any phases, flags and times.
pub fn random_state(random: &mut Random, table: &Table) -> State {
    let clock = match random.below(6) {
        0 => 0,
        1 => LAST_CLOCK,
        2 => LAST_CLOCK - random.below(1_000),
        _ => random.below(200_000),
    };
    let mut state = State::FRESH;
    state.clock = clock;
    let phases: Vec<Phase> = match random.below(5) {
        0 => vec![Phase::Down, Phase::Waiting],
        1 => vec![Phase::Up],
        2 => vec![Phase::Up, Phase::Starting, Phase::Ending],
        _ => Phase::ALL.to_vec(),
    };
    let flags = random.between(1, 3);
    for service in table.numbers() {
        let phase = *random.pick(&phases);
        state.records[service] =
            random_record(random, &table.services[service], clock, phase, flags);
    }
    state
}

/// A record of any of the phases, flags and times that list 24 passes.
pub fn random_record(
    random: &mut Random,
    service: &Service,
    clock: u64,
    phase: Phase,
    flags: u64,
) -> Record {
    let scripted = service.service_type == ServiceType::Scripted;
    let process = service.service_type == ServiceType::Process;
    let phase = if phase == Phase::Starting && !scripted { Phase::Up } else { phase };
    let some_cause = *random.pick(&Cause::ALL[1..]);
    let maybe_cause = if random.one_in(2) { Cause::None } else { some_cause };
    let (live, cause) = match phase {
        Phase::Down | Phase::Waiting => (false, Cause::None),
        Phase::Starting => (true, maybe_cause),
        Phase::Up if process => (maybe_cause == Cause::None || random.one_in(2), maybe_cause),
        Phase::Up => (false, maybe_cause),
        Phase::Ending => (true, some_cause),
    };
    Record {
        phase,
        wanted: random.one_in(1 + flags),
        aside: random.one_in(2 + flags),
        live,
        cause,
        deadline: match random.below(3) {
            0 => Deadline::None,
            _ => Deadline::At(near(random, clock)),
        },
        killed: random.one_in(4),
        not_before: if random.one_in(2) { 0 } else { near(random, clock) },
        last_launch: earlier(random, clock),
        window_start: earlier(random, clock),
        restarts: match random.below(4) {
            0 => LARGEST_COUNT,
            1 => service.restart_limit_count,
            _ => random.below(5),
        },
    }
}

/// A time around the clock, or at the last that list 24 passes.
fn near(random: &mut Random, clock: u64) -> u64 {
    match random.below(8) {
        0 => clock,
        1 => clock + 1,
        2 => clock.saturating_sub(1),
        3 => LAST_CLOCK + LONGEST_TIME,
        4 => 0,
        _ => (clock + random.below(5_000)).saturating_sub(2_500),
    }
}

fn earlier(random: &mut Random, clock: u64) -> u64 {
    match random.below(3) {
        0 => clock,
        1 => 0,
        _ => random.below(clock + 1),
    }
}

/// Lines that put other dependencies into the table, with no cycle: of each
/// service only such as stand before it, or only such as stand after it.
fn put_dependencies(random: &mut Random, builder: &mut Builder, count: u64) {
    let upward = random.one_in(2);
    let density = random.between(1, 4);
    for service in 0..count {
        let others = if upward { service + 1..count } else { 0..service };
        for kind in Kind::ALL {
            let members = others.clone().filter(|_| random.one_in(1 + density));
            let number: u64 = members.map(|other| 2u64.pow(other as u32)).sum();
            builder.push(&format!("table {service} {} {number}", kind.word()));
        }
    }
}

/// A loaded set, whose count and dependencies are sometimes others than any
/// texts give: more than 16 of one service, internal services up to 32.
pub fn free_table(random: &mut Random) -> Builder {
    let mut builder = Builder::new();
    load_set(random, &mut builder);
    if random.one_in(3) {
        let count = match random.below(6) {
            0 => 32,
            _ => random.between(1, 10),
        };
        builder.push(&format!("table count {count}"));
        put_dependencies(random, &mut builder, count);
    }
    builder
}

/// A state that no list of calls need reach, and calls from there.
pub fn free_state_case(random: &mut Random) -> Vec<u8> {
    let mut builder = free_table(random);
    builder.push("show");
    for _ in 0..random.between(1, 6) {
        let Some(loaded) = builder.loaded() else {
            break;
        };
        let goal = random_state(random, &loaded.table.clone());
        builder.put_state(&goal, goal.records.len());
        let first = *random.pick(&["run", "next", "next", "query", "state", "stop-all"]);
        builder.push(first);
        let calls = random.below(12);
        calls_after(random, &mut builder, calls);
        builder.push("run");
        builder.push("state");
    }
    builder.scenario
}

/// Each clause of list 24, just inside and just outside, in turn.
pub fn clause_case(random: &mut Random) -> Vec<u8> {
    let mut builder = Builder::new();
    load_set(random, &mut builder);
    for _ in 0..random.between(6, 20) {
        let Some(loaded) = builder.loaded() else {
            break;
        };
        let (table, services) = (loaded.table.clone(), loaded.services);
        let goal = random_state(random, &table);
        builder.put_state(&goal, goal.records.len());
        let restore = touch_a_clause(random, &mut builder, services);
        for _ in 0..random.between(1, 3) {
            if let Some(loaded) = builder.loaded() {
                let call = clause_call(random, &loaded.table, &loaded.state);
                builder.push(&call);
            }
        }
        if random.one_in(4) {
            builder.push("state");
        }
        if random.one_in(8) {
            builder.push("show");
        }
        for line in restore {
            builder.push(&line);
        }
    }
    builder.push("state");
    builder.scenario
}

/// A call whose refusal shows the order of the numbers too.
fn clause_call(random: &mut Random, table: &Table, state: &State) -> String {
    match random.below(9) {
        0 => "next".to_string(),
        1 => "run".to_string(),
        2 => "run 0 0".to_string(),
        3 => "query".to_string(),
        4 => "stop-all".to_string(),
        5 => format!("start {}", random.below(40)),
        6 => format!("clock {}", *random.pick(&[0, state.clock, LAST_CLOCK, LAST_CLOCK + 1])),
        7 => format!("end {} good", random.below(40)),
        _ => random_call(random, table, state),
    }
}

/// Touches the bound of one clause; gives the lines that undo it.
fn touch_a_clause(random: &mut Random, builder: &mut Builder, services: usize) -> Vec<String> {
    let Some(loaded) = builder.loaded() else {
        return Vec::new();
    };
    let (table, state) = (loaded.table.clone(), loaded.state.clone());
    let count = services as u64;
    let service = random.below(count.max(1));
    let record = state.records[service as usize];
    let mut set = |field: &str, value: String| {
        builder.push(&format!("set {service} {field} {value}"));
        Vec::new()
    };
    let last_time = LAST_CLOCK + LONGEST_TIME;
    match random.below(22) {
        0 => put_count(random, builder, count),
        1 => put_far_dependency(random, builder, &table, service),
        2 => put_cycle(random, builder, &table, service),
        3 | 16 | 17 => put_setting(random, builder, &table, service),
        4 => {
            let clock = *random.pick(&[LAST_CLOCK, LAST_CLOCK + 1, u64::MAX]);
            builder.push(&format!("set clock {clock}"));
            Vec::new()
        }
        5 => set("last-launch", at_or_past(random, state.clock)),
        6 => set("window-start", at_or_past(random, state.clock)),
        7 => set("deadline", at_or_past(random, last_time)),
        8 => set("not-before", at_or_past(random, last_time)),
        9 => set("restarts", at_or_past(random, LARGEST_COUNT)),
        10 | 18 | 19 => set("live", if record.live { "0" } else { "1" }.to_string()),
        11 | 20 => set("cause", random.pick(&Cause::ALL).word().to_string()),
        12 | 13 | 21 => set("phase", random.pick(&Phase::ALL).word().to_string()),
        14 => put_unread_record(random, builder, count),
        _ => put_unread_place(random, builder, count),
    }
}

/// A record past the last service is not read.
fn put_unread_record(random: &mut Random, builder: &mut Builder, count: u64) -> Vec<String> {
    let place = random.between(count.min(31), 31);
    builder.push(&format!("set {place} live 1"));
    builder.push(&format!("set {place} deadline {}", u64::MAX));
    vec![format!("set {place} live 0"), format!("set {place} deadline none")]
}

/// A place of the table past the last service is not read.
fn put_unread_place(random: &mut Random, builder: &mut Builder, count: u64) -> Vec<String> {
    let place = random.between(count.min(31), 31);
    if place < count {
        return Vec::new();
    }
    builder.push(&format!("table {place} depends-on {}", random.number()));
    builder.push(&format!("table {place} stop-timeout {}", u64::MAX));
    vec![
        format!("table {place} depends-on 0"),
        format!("table {place} stop-timeout {DEFAULT_STOP_TIMEOUT}"),
    ]
}

fn at_or_past(random: &mut Random, bound: u64) -> String {
    random.pick(&[bound, bound.saturating_add(1), u64::MAX]).to_string()
}

fn put_count(random: &mut Random, builder: &mut Builder, count: u64) -> Vec<String> {
    let choices = [32, 33, count.saturating_sub(1), (count + 1).min(32), u64::MAX, 1 << 32, 0];
    builder.push(&format!("table count {}", random.pick(&choices)));
    vec![format!("table count {count}")]
}

fn set_number(set: &ServiceSet) -> u64 {
    set.members().into_iter().map(|member| 2u64.pow(member as u32)).sum()
}

/// One dependency more, and the line that takes it back.
fn put_dependency(
    builder: &mut Builder,
    table: &Table,
    service: u64,
    kind: Kind,
    member: usize,
) -> Vec<String> {
    let before = set_number(table.services[service as usize].dependencies(kind));
    let mut set = ServiceSet::from_number(before);
    set.holds[member] = true;
    builder.push(&format!("table {service} {} {}", kind.word(), set_number(&set)));
    vec![format!("table {service} {} {before}", kind.word())]
}

/// A dependency on the first number that is no service, on the last, or on the
/// last service.
fn put_far_dependency(
    random: &mut Random,
    builder: &mut Builder,
    table: &Table,
    service: u64,
) -> Vec<String> {
    let kind = *random.pick(&Kind::ALL);
    let member = *random.pick(&[table.count, table.count - 1, 31, 32, 63]) as usize;
    put_dependency(builder, table, service, kind, member)
}

/// A dependency on itself, or back from one that depends on it.
fn put_cycle(
    random: &mut Random,
    builder: &mut Builder,
    table: &Table,
    service: u64,
) -> Vec<String> {
    let kind = *random.pick(&Kind::ALL);
    let dependents: Vec<usize> = table
        .numbers()
        .filter(|other| table.services[*other].depends_by_any_kind(service as usize))
        .collect();
    let member = match dependents.as_slice() {
        [] => service as usize,
        some => *random.pick(some),
    };
    put_dependency(builder, table, service, kind, member)
}

fn put_setting(
    random: &mut Random,
    builder: &mut Builder,
    table: &Table,
    service: u64,
) -> Vec<String> {
    let settings = &table.services[service as usize];
    let (field, before, bound) = match random.below(5) {
        0 => ("restart-delay", settings.restart_delay, LONGEST_TIME),
        1 => ("restart-limit-interval", settings.restart_limit_interval, LONGEST_TIME),
        2 => ("restart-limit-count", settings.restart_limit_count, LARGEST_COUNT),
        3 => ("start-timeout", settings.start_timeout, LONGEST_TIME),
        _ => ("stop-timeout", settings.stop_timeout, LONGEST_TIME),
    };
    let value = *random.pick(&[bound, bound + 1, u64::MAX]);
    builder.push(&format!("table {service} {field} {value}"));
    vec![format!("table {service} {field} {before}")]
}
