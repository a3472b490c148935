//! The loops of the benchmark in Rust: `bench plain|careful LOOP SERVICES
//! COUNT` makes COUNT turns of a loop over a set of 2, 8 or 32 services and
//! prints a checksum of the answers. `bench texts SERVICES` prints what the
//! loop `load` reads from standard input. The Rattle program `bench` has the
//! same loops on the same inputs and prints the same checksums.
//!
//! The inputs follow from the number n of services alone. Service i has the
//! place 13 i mod n in the order of the dependencies, and place p has service
//! 5 p mod n. The service at place p depends on the one at p - 1, has a
//! depends-ms on p - 2 and a waits-for on p - 3, where there are such. It is a
//! process that restarts, and internal where i mod 8 is 7; the times are the
//! default ones.
//!
//! | state | is |
//! |---|---|
//! | up | clock 1,000,000; every service up, wanted, live if it is a process |
//! | half | the same, but waiting from place n / 2 on |
//! | begun | fresh, then a start of the service at place n - 1 |
//!
//! | loop | each turn, counted by k from 0 |
//! |---|---|
//! | next-quiet | clock one more, next action of up |
//! | next-launch | clock one more, next action of half |
//! | start, stop, end | that event of service k mod n in up; the end is bad |
//! | stop-all, clock | that event in up; the clock is 1,000,000 + k |
//! | query | clock one more, query of half |
//! | run | clock k, a run to quiet of begun with two slices of 128 places |
//! | load | a load of the services s00, s01, .. with texts of 1,024 bytes |
//!
//! In the loop query service 0 has the not-before 2,000,000. After each turn of
//! an event or a request for the next action the record that it changed is put
//! back: of service k mod n, for the two of next action of the one at n / 2.
//! A turn's answer is one number, taken up as `sum = sum mod 2^32 * 31 +
//! number`; at the end the state is taken up in the same way.

use second::engine::*;
use second::loader;
use std::hint::black_box;
use std::io::{self, Read, Write};
use std::process::exit;
use tools::careful;

/// The calls of one engine over its own kind of table.
trait Engine {
    type Table;
    fn table(plain: &Table) -> Self::Table;
    fn start(table: &Self::Table, state: &mut State, service: u64) -> Result<(), u64>;
    fn stop(table: &Self::Table, state: &mut State, service: u64) -> Result<(), u64>;
    fn stop_all(table: &Self::Table, state: &mut State) -> Result<(), u64>;
    fn end(table: &Self::Table, state: &mut State, service: u64) -> Result<(), u64>;
    fn clock(table: &Self::Table, state: &mut State, time: u64) -> Result<(), u64>;
    fn next(table: &Self::Table, state: &mut State) -> Result<Action, u64>;
    fn query(table: &Self::Table, state: &State) -> Result<Option<u64>, u64>;
    fn run(
        table: &Self::Table,
        state: &mut State,
        services: &mut [u64],
        actions: &mut [u64],
    ) -> Result<usize, u64>;
}

struct Plain;
struct Careful;

macro_rules! engine {
    ($engine:ident, $calls:path, $table:ty, $make:expr) => {
        impl Engine for $engine {
            type Table = $table;

            fn table(plain: &Table) -> $table {
                $make(plain)
            }
            #[inline(never)]
            fn start(table: &$table, state: &mut State, service: u64) -> Result<(), u64> {
                use $calls as calls;
                calls::start(table, state, service)
            }
            #[inline(never)]
            fn stop(table: &$table, state: &mut State, service: u64) -> Result<(), u64> {
                use $calls as calls;
                calls::stop(table, state, service)
            }
            #[inline(never)]
            fn stop_all(table: &$table, state: &mut State) -> Result<(), u64> {
                use $calls as calls;
                calls::stop_all(table, state)
            }
            #[inline(never)]
            fn end(table: &$table, state: &mut State, service: u64) -> Result<(), u64> {
                use $calls as calls;
                calls::end(table, state, service, false)
            }
            #[inline(never)]
            fn clock(table: &$table, state: &mut State, time: u64) -> Result<(), u64> {
                use $calls as calls;
                calls::clock(table, state, time)
            }
            #[inline(never)]
            fn next(table: &$table, state: &mut State) -> Result<Action, u64> {
                use $calls as calls;
                calls::next_action(table, state)
            }
            #[inline(never)]
            fn query(table: &$table, state: &State) -> Result<Option<u64>, u64> {
                use $calls as calls;
                calls::query(table, state)
            }
            #[inline(never)]
            fn run(
                table: &$table,
                state: &mut State,
                services: &mut [u64],
                actions: &mut [u64],
            ) -> Result<usize, u64> {
                use $calls as calls;
                calls::run_to_quiet(table, state, services, actions)
            }
        }
    };
}

engine!(Plain, second::engine, Table, Table::clone);
engine!(Careful, tools::careful, careful::Table, careful::Table::of);

// The inputs.

fn service_at(place: usize, count: usize) -> usize {
    5 * place % count
}

fn place_of(service: usize, count: usize) -> usize {
    13 * service % count
}

fn table_of(count: usize) -> Table {
    let mut table = Table::EMPTY;
    table.count = count as u64;
    for (number, service) in table.services[..count].iter_mut().enumerate() {
        let internal = number % 8 == 7;
        service.service_type = if internal { ServiceType::Internal } else { ServiceType::Process };
        service.restart = true;
        service.command_tokens = if internal { 0 } else { 1 };
        let place = place_of(number, count);
        for (back, kind) in Kind::ALL.into_iter().enumerate() {
            if place > back {
                let dependency = service_at(place - back - 1, count);
                service.dependencies_mut(kind).holds[dependency] = true;
            }
        }
    }
    table
}

const UP_CLOCK: u64 = 1_000_000;

/// Up below the given place, waiting from there on.
fn state_up_to(first_waiting: usize, count: usize) -> State {
    let mut state = State::FRESH;
    state.clock = UP_CLOCK;
    for (number, record) in state.records[..count].iter_mut().enumerate() {
        let up = place_of(number, count) < first_waiting;
        record.phase = if up { Phase::Up } else { Phase::Waiting };
        record.wanted = true;
        record.live = up && number % 8 != 7;
    }
    state
}

// The checksum.

fn taken_up(sum: u64, number: u64) -> u64 {
    sum % 4_294_967_296 * 31 + number % 4_294_967_296
}

fn record_number(record: &Record) -> u64 {
    let phase = record.phase as u64;
    let cause = record.cause as u64;
    let flags = u64::from(record.wanted)
        + 2 * u64::from(record.aside)
        + 4 * u64::from(record.live)
        + 8 * u64::from(record.killed);
    phase + 8 * cause + 64 * flags
}

fn time_number(deadline: Deadline) -> u64 {
    match deadline {
        Deadline::None => 0,
        Deadline::At(time) => 1 + time % 4_294_967_295,
    }
}

fn state_taken_up(sum: u64, state: &State, count: usize) -> u64 {
    let mut sum = taken_up(sum, state.clock);
    for record in &state.records[..count] {
        sum = taken_up(sum, record_number(record));
        sum = taken_up(sum, time_number(record.deadline));
        sum = taken_up(sum, record.not_before);
        sum = taken_up(sum, record.last_launch);
        sum = taken_up(sum, record.window_start);
        sum = taken_up(sum, record.restarts);
    }
    sum
}

fn event_number(answer: Result<(), u64>, record: &Record) -> u64 {
    1_024 * answer.err().unwrap_or(0) + record_number(record)
}

fn action_number(answer: Result<Action, u64>) -> u64 {
    match answer {
        Err(refused) => 1_024 * refused,
        Ok(action) => match (action.service(), action.number()) {
            (Some(service), Some(number)) => 1 + service as u64 + 32 * number,
            _ => 0,
        },
    }
}

fn query_number(answer: Result<Option<u64>, u64>) -> u64 {
    match answer {
        Err(refused) => 1_024 * refused,
        Ok(None) => 0,
        Ok(Some(time)) => time,
    }
}

// The loops.

/// The turns of an event: the record of service k mod n is put back after each.
fn events(
    count: usize,
    turns: u64,
    mut event: impl FnMut(&mut State, u64, u64) -> Result<(), u64>,
) -> u64 {
    let before = state_up_to(count, count);
    let mut state = before.clone();
    let mut sum = 0;
    for turn in 0..turns {
        let service = turn as usize % count;
        let answer = event(black_box(&mut state), service as u64, turn);
        sum = taken_up(sum, event_number(answer, &state.records[service]));
        state.records[service] = before.records[service];
    }
    state_taken_up(sum, &state, count)
}

/// The turns of a request for the next action.
fn requests<E: Engine>(table: &E::Table, before: State, count: usize, turns: u64) -> u64 {
    let service = service_at(count / 2, count);
    let mut state = before.clone();
    let mut sum = 0;
    for _ in 0..turns {
        state.clock += 1;
        let answer = E::next(table, black_box(&mut state));
        sum = taken_up(sum, action_number(answer));
        state.records[service] = before.records[service];
    }
    state_taken_up(sum, &state, count)
}

fn queries<E: Engine>(table: &E::Table, count: usize, turns: u64) -> u64 {
    let mut state = state_up_to(count / 2, count);
    state.records[0].not_before = 2 * UP_CLOCK;
    let mut sum = 0;
    for _ in 0..turns {
        state.clock += 1;
        sum = taken_up(sum, query_number(E::query(table, black_box(&state))));
    }
    state_taken_up(sum, &state, count)
}

fn runs<E: Engine>(table: &E::Table, count: usize, turns: u64) -> u64 {
    let mut begun = State::FRESH;
    let last = service_at(count - 1, count) as u64;
    let mut sum = E::start(table, &mut begun, last).err().unwrap_or(0);
    let (mut services, mut actions) = ([0; 128], [0; 128]);
    let mut state = begun.clone();
    for turn in 0..turns {
        state = begun.clone();
        state.clock = turn;
        let answer = E::run(table, black_box(&mut state), &mut services, &mut actions);
        sum = taken_up(sum, answer.map_or_else(|refused| 1_024 * refused, |ran| ran as u64));
        sum = taken_up(sum, services[count]);
        sum = taken_up(sum, actions[count]);
    }
    state_taken_up(sum, &state, count)
}

fn engine_loop<E: Engine>(name: &str, count: usize, turns: u64) -> u64 {
    let table = &E::table(&table_of(count));
    let table = black_box(table);
    match name {
        "next-quiet" => requests::<E>(table, state_up_to(count, count), count, turns),
        "next-launch" => requests::<E>(table, state_up_to(count / 2, count), count, turns),
        "start" => events(count, turns, |state, service, _| E::start(table, state, service)),
        "stop" => events(count, turns, |state, service, _| E::stop(table, state, service)),
        "stop-all" => events(count, turns, |state, _, _| E::stop_all(table, state)),
        "end" => events(count, turns, |state, service, _| E::end(table, state, service)),
        "clock" => events(count, turns, |state, _, turn| E::clock(table, state, UP_CLOCK + turn)),
        "query" => queries::<E>(table, count, turns),
        "run" => runs::<E>(table, count, turns),
        _ => fail(),
    }
}

// The load.

const NAME_BYTES: usize = 3;
const TEXT_BYTES: usize = 1_024;

/// A text of 1,024 bytes: settings, three dependencies where the place has
/// them, and comment lines up to the end.
fn text_of(number: usize, count: usize) -> Vec<u8> {
    let mut text = format!(
        "# service {number:02}, one of a set of {count}\n\
         type = process\n\
         command = /usr/bin/service-{number:02} --config \"/etc/service {number:02}/main.conf\" --level 3\n\
         stop-command = /usr/bin/stop\\ service --name s{number:02} --wait\n\
         restart = yes\n\
         smooth-recovery = no\n\
         restart-delay = 0.25\n\
         restart-limit-interval = 12.5\n\
         restart-limit-count = 5\n\
         start-timeout = 45\n\
         stop-timeout = 9.75\n\
         term-signal = INT\n"
    );
    let place = place_of(number, count);
    for (back, kind) in Kind::ALL.into_iter().enumerate() {
        if place > back {
            let dependency = service_at(place - back - 1, count);
            text.push_str(&format!("{} = s{dependency:02}\n", kind.word()));
        }
    }
    while text.len() + 80 < TEXT_BYTES {
        text.push_str(
            "  command   =  /usr/bin/other  \"a quoted word\"  \\\"escaped\\\"   # later\n",
        );
    }
    text.push_str(&"#".repeat(TEXT_BYTES - 1 - text.len()));
    text.push('\n');
    text.into_bytes()
}

/// What is lent: name and text of each service, one after the other.
fn lent_bytes(count: usize) -> Vec<u8> {
    let mut bytes = Vec::new();
    for number in 0..count {
        bytes.extend_from_slice(format!("s{number:02}").as_bytes());
        bytes.extend_from_slice(&text_of(number, count));
    }
    bytes
}

#[inline(never)]
fn load(bytes: &[u8], positions: &[u64], tokens: &mut [u8]) -> Result<Table, loader::Refusal> {
    loader::load(bytes, positions, tokens).map(|set| set.table)
}

/// The loads; of each the answer, and the settings of service k mod n.
fn loads(count: usize, turns: u64) -> u64 {
    let mut bytes = Vec::new();
    let read = io::stdin().lock().read_to_end(&mut bytes);
    if read.is_err() {
        fail();
    }
    let mut positions = Vec::new();
    for number in 0..count as u64 {
        let begin = number * (NAME_BYTES + TEXT_BYTES) as u64;
        positions.push(begin + NAME_BYTES as u64);
        positions.push(begin + (NAME_BYTES + TEXT_BYTES) as u64);
    }
    let mut tokens = vec![0; 65_536];
    let mut sum = 0;
    for turn in 0..turns {
        match load(black_box(&bytes), &positions, &mut tokens) {
            Err(refusal) => {
                sum = taken_up(sum, refusal.number);
                sum = taken_up(sum, refusal.service);
                sum = taken_up(sum, refusal.line);
                sum = taken_up(sum, refusal.column);
            }
            Ok(table) => {
                let service = &table.services[turn as usize % count];
                sum = taken_up(sum, table.count);
                sum = taken_up(sum, service.start_timeout);
                sum = taken_up(sum, bits_of(&service.depends_on));
                sum = taken_up(sum, bits_of(&service.depends_ms));
                sum = taken_up(sum, bits_of(&service.waits_for));
            }
        }
        sum = taken_up(sum, u64::from(tokens[turn as usize % 1_024]));
    }
    sum
}

fn bits_of(set: &ServiceSet) -> u64 {
    set.members().into_iter().fold(0, |bits, member| bits | 1 << member)
}

// The command.

fn fail() -> ! {
    eprintln!(
        "usage: bench plain|careful LOOP SERVICES COUNT\n       bench texts SERVICES\n\
         LOOP: next-quiet next-launch start stop stop-all end clock query run load\n\
         SERVICES: 2, 8 or 32"
    );
    exit(2)
}

fn services_of(word: &str) -> usize {
    match word {
        "2" => 2,
        "8" => 8,
        "32" => 32,
        _ => fail(),
    }
}

fn main() {
    let words: Vec<String> = std::env::args().skip(1).collect();
    let words: Vec<&str> = words.iter().map(String::as_str).collect();
    let sum = match words.as_slice() {
        ["texts", count] => {
            if io::stdout().write_all(&lent_bytes(services_of(count))).is_err() {
                exit(1);
            }
            return;
        }
        [engine, name, count, turns] => {
            let count = services_of(count);
            let turns = turns.parse::<u64>().unwrap_or_else(|_| fail());
            match (*engine, *name) {
                ("plain", "load") => loads(count, turns),
                ("plain", _) => engine_loop::<Plain>(name, count, turns),
                ("careful", _) => engine_loop::<Careful>(name, count, turns),
                _ => fail(),
            }
        }
        _ => fail(),
    };
    println!("{sum}");
}
