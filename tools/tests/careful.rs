//! The careful engine of the benchmark answers every call as the plain one
//! does and leaves the same state, over many random tables, states and calls.

use second::engine::{self, Cause, Kind, Phase, ServiceSet, ServiceType, Signal, State, Table};
use tools::careful;
use tools::generate::states::random_state;
use tools::random::Random;

fn random_set(random: &mut Random, service: u64, count: u64, upward: bool) -> ServiceSet {
    let thin = random.between(1, 6);
    let mut set = ServiceSet::EMPTY;
    for other in 0..count {
        let allowed = if upward { other > service } else { other < service };
        set.holds[other as usize] = allowed && random.one_in(1 + thin);
    }
    set
}

/// A table that list 24 passes.
fn random_table(random: &mut Random) -> Table {
    let mut table = Table::EMPTY;
    table.count = *random.pick(&[0, 1, 2, 3, 4, 5, 8, 12, 31, 32]);
    let (count, upward) = (table.count, random.one_in(2));
    for service in 0..count {
        let place = &mut table.services[service as usize];
        place.service_type = *random.pick(&ServiceType::ALL);
        place.restart = random.one_in(2);
        place.restart_delay = *random.pick(&[0, 2_000, 864_000_000]);
        place.restart_limit_interval = *random.pick(&[0, 1_000, 100_000]);
        place.restart_limit_count = *random.pick(&[0, 1, 3, 65_535]);
        place.start_timeout = *random.pick(&[0, 1_000, 600_000]);
        place.stop_timeout = *random.pick(&[0, 1_000, 100_000]);
        place.term_signal = *random.pick(&Signal::ALL);
        place.command_tokens = 1;
        place.stop_command_tokens = random.below(2);
        for kind in Kind::ALL {
            *place.dependencies_mut(kind) = random_set(random, service, count, upward);
        }
    }
    table
}

/// One change that may break a clause of list 24.
fn break_something(random: &mut Random, table: &mut Table, state: &mut State) {
    let number = random.below(32) as usize;
    let (place, record) = (&mut table.services[number], &mut state.records[number]);
    let far = *random.pick(&[864_000_000, 864_000_001, 1 << 48, (1 << 48) + 864_000_001, u64::MAX]);
    match random.below(17) {
        0 => table.count = *random.pick(&[31, 32, 33, u64::MAX]),
        1 => place.depends_on.holds[random.below(64) as usize] = true,
        2 => place.depends_ms.holds[number] = true,
        3 => place.waits_for.holds[random.below(32) as usize] = true,
        4 => place.restart_delay = far,
        5 => place.restart_limit_interval = far,
        6 => place.restart_limit_count = *random.pick(&[65_535, 65_536]),
        7 => place.start_timeout = far,
        8 => place.stop_timeout = far,
        9 => state.clock = far,
        10 => record.last_launch = state.clock + random.below(2),
        11 => record.window_start = state.clock + random.below(2),
        12 => record.deadline = engine::Deadline::At(far),
        13 => record.not_before = far,
        14 => record.restarts = *random.pick(&[65_535, 65_536]),
        15 => record.live = !record.live,
        _ => {
            record.phase = *random.pick(&Phase::ALL);
            record.cause = *random.pick(&Cause::ALL);
        }
    }
}

/// Makes one call of both engines, and gives its number.
fn same_call(random: &mut Random, plain: &Table, state: &mut State) -> u64 {
    let fast = careful::Table::of(plain);
    let mut other = state.clone();
    let service = random.below(plain.count.min(40) + 1);
    let time = match random.below(4) {
        0 => random.number() >> 8,
        1 => state.clock.saturating_sub(1),
        _ => state.clock.saturating_add(random.below(200_000)),
    };
    let call = match random.below(9) {
        // All stopped too often, little happens.
        2 if !random.one_in(3) => 7,
        call => call,
    };
    match call {
        0 => assert_eq!(
            engine::start(plain, state, service),
            careful::start(&fast, &mut other, service)
        ),
        1 => assert_eq!(
            engine::stop(plain, state, service),
            careful::stop(&fast, &mut other, service)
        ),
        2 => {
            assert_eq!(engine::stop_all(plain, state), careful::stop_all(&fast, &mut other));
        }
        3 => {
            let good = random.one_in(2);
            assert_eq!(
                engine::end(plain, state, service, good),
                careful::end(&fast, &mut other, service, good)
            );
        }
        4 => {
            assert_eq!(engine::clock(plain, state, time), careful::clock(&fast, &mut other, time))
        }
        5 => assert_eq!(engine::query(plain, state), careful::query(&fast, &other)),
        6 => {
            let room = *random.pick(&[256, 256, 4, 127]);
            let (mut first, mut second) = (vec![7; room], vec![7; 256]);
            let (mut third, mut fourth) = (first.clone(), second.clone());
            assert_eq!(
                engine::run_to_quiet(plain, state, &mut first, &mut second),
                careful::run_to_quiet(&fast, &mut other, &mut third, &mut fourth)
            );
            assert_eq!((first, second), (third, fourth));
        }
        _ => {
            assert_eq!(engine::next_action(plain, state), careful::next_action(&fast, &mut other))
        }
    }
    assert_eq!(*state, other);
    call
}

#[test]
fn the_careful_engine_equals_the_plain_one() {
    let mut calls = [0u64; 9];
    for index in 0..4_000 {
        let mut random = Random::new(1, 77, index);
        let mut table = random_table(&mut random);
        let mut state =
            if random.one_in(4) { State::FRESH } else { random_state(&mut random, &table) };
        if random.one_in(4) {
            break_something(&mut random, &mut table, &mut state);
        }
        for _ in 0..25 {
            calls[same_call(&mut random, &table, &mut state) as usize] += 1;
        }
    }
    assert!(calls.iter().all(|made| *made > 1_000), "{calls:?}");
}
