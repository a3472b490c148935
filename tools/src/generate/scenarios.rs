//! Cases of the kind `scenarios`: a loaded set and a list of calls, each chosen
//! by looking at the state as it stands; calls that do something, calls that
//! are refused, and lines that are none of the format's.

use super::builder::Builder;
use super::sketch::{set_size, sketch_set, Manner};
use super::texts::plain_text;
use crate::random::Random;
use second::engine::{Deadline, State, Table, LAST_CLOCK};

/// Gives and loads a random valid set with short times.
pub fn load_set(random: &mut Random, builder: &mut Builder) {
    let size = set_size(random);
    let odd_times = random.one_in(8);
    let manner = Manner { odd_names: false, odd_times, unused_settings: true, zero_timeouts: true };
    for sketch in sketch_set(random, size, manner) {
        builder.service(random, &plain_text(&sketch));
    }
    builder.push("load 65536");
    if random.one_in(3) {
        builder.push("show");
    }
}

/// How the calls of a scenario are mixed.
#[derive(Clone, Copy, PartialEq, Eq, Debug)]
enum Habit {
    RunAfterEach,
    SingleActions,
    Mixed,
}

pub fn call_case(random: &mut Random) -> Vec<u8> {
    let mut builder = Builder::new();
    load_set(random, &mut builder);
    if random.one_in(15) {
        let time = LAST_CLOCK - random.below(100_000);
        builder.push(&format!("clock {time}"));
    }
    let calls = random.between(20, 120);
    calls_after(random, &mut builder, calls);
    builder.push("state");
    builder.scenario
}

/// Adds this many calls, the state shown often enough that a wrong one is seen.
pub fn calls_after(random: &mut Random, builder: &mut Builder, calls: u64) {
    let habit = *random.pick(&[Habit::RunAfterEach, Habit::SingleActions, Habit::Mixed]);
    for _ in 0..calls {
        let Some(loaded) = builder.loaded() else {
            return;
        };
        let call = random_call(random, &loaded.table, &loaded.state);
        builder.push(&call);
        let nexts = if habit == Habit::SingleActions { random.below(4) } else { 0 };
        (0..nexts).for_each(|_| builder.push("next"));
        if habit == Habit::RunAfterEach {
            builder.push("run");
        }
        if random.one_in(4) {
            builder.push("state");
        }
        if random.one_in(40) {
            let line = odd_line(random);
            builder.push_bytes(&line);
        }
    }
}

/// One call: most do something, some are refused.
pub fn random_call(random: &mut Random, table: &Table, state: &State) -> String {
    let count = table.count.max(1);
    let service = random.below(count);
    match random.below(100) {
        0..=17 => format!("start {service}"),
        18..=24 => format!("stop {service}"),
        25..=26 => "stop-all".to_string(),
        27..=48 => end_of_live(random, table, state),
        49..=68 => clock_call(random, table, state),
        69..=81 => "run".to_string(),
        82..=91 => "next".to_string(),
        92..=94 => "query".to_string(),
        _ => refused_call(random, table, state),
    }
}

fn good_or_bad(random: &mut Random) -> &'static str {
    if random.one_in(2) {
        "good"
    } else {
        "bad"
    }
}

fn end_of_live(random: &mut Random, table: &Table, state: &State) -> String {
    let live: Vec<usize> = table.numbers().filter(|service| state.records[*service].live).collect();
    if live.is_empty() {
        return "run".to_string();
    }
    format!("end {} {}", random.pick(&live), good_or_bad(random))
}

/// A clock reading: at a pending time, just before it, just after it, the
/// same again, or any later one.
fn clock_call(random: &mut Random, table: &Table, state: &State) -> String {
    let mut pending = Vec::new();
    for service in table.numbers() {
        let record = &state.records[service];
        pending.push(record.not_before);
        if let Deadline::At(time) = record.deadline {
            pending.push(time);
        }
    }
    pending.retain(|time| *time > state.clock && *time <= LAST_CLOCK);
    let soon = state.clock.saturating_add(random.below(60_000));
    let time = match random.below(8) {
        0 => state.clock,
        1 => soon,
        2 => state.clock.saturating_add(random.below(2_500)),
        _ if pending.is_empty() => soon,
        3 => random.pick(&pending) - 1,
        4 => random.pick(&pending).saturating_add(1),
        5 => *pending.iter().max().unwrap_or(&soon),
        _ => *random.pick(&pending),
    };
    format!("clock {time}")
}

/// A call that is refused, or that is so at the edge.
fn refused_call(random: &mut Random, table: &Table, state: &State) -> String {
    let beyond = *random.pick(&[table.count, 31, 32, 33, 64, u64::MAX, u64::MAX - 1]);
    let any = random.below(table.count.max(1));
    let enough = table.count.saturating_mul(4).min(256);
    let short = enough.saturating_sub(1);
    match random.below(11) {
        0 => format!("start {beyond}"),
        1 => format!("stop {beyond}"),
        2 => format!("end {beyond} {}", good_or_bad(random)),
        3 | 4 => format!("end {any} {}", good_or_bad(random)),
        5 => format!("clock {}", state.clock.saturating_sub(random.between(0, 2))),
        6 => format!("clock {}", LAST_CLOCK + 1),
        7 => format!("clock {}", *random.pick(&[0, u64::MAX, 1 << 63, LAST_CLOCK + 2])),
        8 => format!("run {short} {enough}"),
        9 => format!("run {enough} {short}"),
        _ => format!("run {enough} {enough}"),
    }
}

/// Lines of the format's edges: most give `bad line`.
const ODD_LINES: [&[u8]; 62] = [
    b"next\r",
    b"next ",
    b" next",
    b"Next",
    b"start",
    b"start ",
    b"start  0",
    b"start 0 ",
    b"start 0 0",
    b"start -1",
    b"start +1",
    b"start 0x1",
    b"start 1.0",
    b"start 18446744073709551615",
    b"start 18446744073709551616",
    b"start 00000000000000000000",
    b"start 000000000000000000000",
    b"start 99999999999999999999",
    b"clock 00000000000000000001",
    b"clock",
    b"clock none",
    b"end 0",
    b"end 0 Good",
    b"end good 0",
    b"stop all",
    b"stop-all ",
    b"stop-all 0",
    b"run 4",
    b"run 257 256",
    b"run 256 257",
    b"run 256 256",
    b"run 0 0",
    b"run 0256 256",
    b"run  ",
    b"query x",
    b"state ",
    b"state 0",
    b"show 0",
    b"%",
    b"% next",
    b"",
    b"\t",
    b"\x00",
    b"\xff\xfe",
    b"set clock",
    b"set clock none",
    b"set 32 live 0",
    b"set 0 live 2",
    b"set 0 live 01",
    b"set 0 phase Up",
    b"set 0 cause User",
    b"set 0 deadline None",
    b"set 0 type process",
    b"set 0 restarts none",
    b"table 0 restart 1",
    b"table 32 waits-for 0",
    b"table count",
    b"table count none",
    b"table 0 start-timeout none",
    b"load",
    b"load 65537",
    b"load x",
];

/// One of the odd lines, a `load` with positions that are none, or any bytes.
pub fn odd_line(random: &mut Random) -> Vec<u8> {
    match random.below(12) {
        0 => b"load 0 1 2 3 x".to_vec(),
        1 => format!("load 0{}", " 0".repeat(71)).into_bytes(),
        2 => (0..random.below(8)).map(|_| *random.pick(b"0123 nextrus%|!\r\xff")).collect(),
        _ => random.pick(&ODD_LINES).to_vec(),
    }
}

/// A scenario whose lines are mostly of the format's edges, some before a set
/// is loaded.
pub fn odd_case(random: &mut Random) -> Vec<u8> {
    let mut builder = Builder::new();
    for _ in 0..random.below(6) {
        let line = odd_line(random);
        builder.push_bytes(&line);
    }
    for line in ["|type=internal", "!x", "next", "show", "state", "table count 0", "run 1 1"] {
        if random.one_in(3) {
            builder.push(line);
        }
    }
    load_set(random, &mut builder);
    for _ in 0..random.between(10, 60) {
        if random.one_in(2) {
            let line = odd_line(random);
            builder.push_bytes(&line);
        } else if let Some(loaded) = builder.loaded() {
            let call = random_call(random, &loaded.table, &loaded.state);
            builder.push(&call);
        }
        if random.one_in(8) {
            let line = *random.pick(&["state", "show", "load 65536", "load 0"]);
            builder.push(line);
        }
    }
    let mut scenario = builder.scenario;
    if random.one_in(3) {
        // The last line may lack its newline.
        scenario.pop();
    }
    scenario
}

/// A scenario that the cut after 262,144 bytes shortens somewhere in its calls.
pub fn cut_case(random: &mut Random) -> Vec<u8> {
    let mut builder = Builder::new();
    load_set(random, &mut builder);
    let mut scenario = builder.scenario.clone();
    let begun = scenario.len();
    calls_after(random, &mut builder, 40);
    builder.push("state");
    let calls = &builder.scenario[begun..];
    let kept = random.below(calls.len() as u64 + 1) as usize;
    let filling = second::scenario::INPUT_BYTES.saturating_sub(scenario.len() + kept + 2);
    scenario.push(b'%');
    scenario.extend(std::iter::repeat_n(b'c', filling));
    scenario.push(b'\n');
    scenario.extend_from_slice(calls);
    scenario
}
