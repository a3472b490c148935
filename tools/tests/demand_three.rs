//! The search for demand 3: the watch knows a round when one ends and reports
//! what is broken, and a short search finds nothing.

use second::engine::{Kind, Phase, Record, Service, ServiceType, Table};
use std::time::Duration;
use tools::search::search;
use tools::watch::{broken_by, steps_to_quiet, Call, Watch};

/// The pair of paper 01 as a table.
fn pair() -> Table {
    let mut table = Table::EMPTY;
    table.count = 2;
    for place in &mut table.services[..2] {
        *place = Service { service_type: ServiceType::Process, restart: true, ..Service::UNUSED };
    }
    table.services[1].dependencies_mut(Kind::DependsOn).holds[0] = true;
    table
}

const RUN: Call = Call::Run(256, 256);

/// The pair, shut down: each call with the rounds that have then ended. The
/// averager is asked to end, killed and reported; then the reader.
const SHUTDOWN: [(Call, u64); 13] = [
    (Call::Start(1), 0),
    (RUN, 0),
    (Call::StopAll, 0),
    (Call::Clock(10), 0),
    (RUN, 1),
    (Call::Clock(99_999), 1),
    (Call::Clock(100_010), 1),
    (RUN, 1),
    (Call::End(1, true), 1),
    (RUN, 2),
    (Call::Clock(200_010), 2),
    (RUN, 2),
    (Call::End(0, false), 3),
];

#[test]
fn rounds_are_counted_after_a_stop_all() {
    let table = pair();
    let mut watch = Watch::new(&table);
    for (call, rounds) in SHUTDOWN {
        watch.call(call).expect("nothing is broken");
        assert_eq!(watch.rounds_ended, rounds, "{call:?}");
    }
    assert_eq!(steps_to_quiet(&table, &watch.state), Some(0));
}

#[test]
fn an_action_under_a_live_hard_dependent_is_reported() {
    let table = pair();
    for request in [RUN, Call::Next] {
        let mut watch = Watch::new(&table);
        for call in [Call::Start(1), RUN, Call::Stop(0)] {
            watch.call(call).expect("nothing is broken");
        }
        // The state forgets the averager, whose process lives.
        watch.state.records[1] = Record::FRESH;
        let said =
            "signal 0 TERM is handed out while 1, which hard-depends on 0, has a live process";
        assert_eq!(watch.call(request), Err(said.to_string()));
    }
}

#[test]
fn a_service_that_is_not_down_after_the_rounds_is_reported() {
    let table = pair();
    let mut watch = Watch::new(&table);
    for (call, _) in SHUTDOWN {
        watch.call(call).expect("nothing is broken");
    }
    watch.state.records[1].phase = Phase::Waiting;
    let said = "1 is not down after a stop all and 3 rounds";
    assert_eq!(watch.call(Call::Query), Err(said.to_string()));
}

#[test]
fn calls_and_their_lines_agree() {
    for line in [
        "start 3",
        "stop 0",
        "stop-all",
        "end 1 good",
        "end 1 bad",
        "clock 5",
        "next",
        "run 7 8",
        "query",
    ] {
        assert_eq!(Call::from_line(line).map(Call::line).as_deref(), Some(line));
    }
    assert_eq!(broken_by(&pair(), &[Call::Start(9), Call::Query, Call::Run(7, 8)]), None);
}

#[test]
fn a_short_search_finds_nothing_broken() {
    let tried = search(11, Duration::from_secs(2));
    assert_eq!(tried.broken, None);
    assert!(tried.lists > 0 && tried.states > 0 && tried.rounds > 0);
}
