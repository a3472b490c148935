//! Sketches of services: what a description is to say, before it is written
//! down as a text, and random sets of them whose dependencies have no cycle.

use crate::random::Random;
use second::engine::{Kind, ServiceType, Signal};

/// One property and its value's tokens.
#[derive(Clone, Debug)]
pub struct Setting {
    pub property: &'static str,
    pub tokens: Vec<Vec<u8>>,
}

impl Setting {
    pub fn word(property: &'static str, word: &str) -> Setting {
        Setting { property, tokens: vec![word.as_bytes().to_vec()] }
    }
}

#[derive(Clone, Debug)]
pub struct Sketch {
    pub name: Vec<u8>,
    pub settings: Vec<Setting>,
}

/// How a set is drawn.
#[derive(Clone, Copy, Debug)]
pub struct Manner {
    /// Names of every good form, or plain short ones.
    pub odd_names: bool,
    /// Times of every good form, or short ones that a clock soon passes.
    pub odd_times: bool,
    /// Settings that do not apply to the type too.
    pub unused_settings: bool,
    /// Timeouts of 0 among the times; without them, none is 0.
    pub zero_timeouts: bool,
}

/// The number of services of a set: mostly few.
pub fn set_size(random: &mut Random) -> usize {
    let size = match random.below(20) {
        0 => random.between(9, 32),
        1 => 32,
        2..=6 => random.between(1, 2),
        _ => random.between(2, 8),
    };
    size as usize
}

/// A set of this many services with dependencies of all kinds and no cycle.
pub fn sketch_set(random: &mut Random, size: usize, manner: Manner) -> Vec<Sketch> {
    let mut sketches: Vec<Sketch> = Vec::new();
    for service in 0..size {
        let mut name = plain_name(service);
        if manner.odd_names && random.one_in(3) {
            name = odd_name(random);
        }
        if sketches.iter().any(|other| other.name == name) {
            name = plain_name(service);
        }
        let settings = sketch_settings(random, manner);
        sketches.push(Sketch { name, settings });
    }
    add_dependencies(random, &mut sketches);
    sketches
}

pub fn plain_name(service: usize) -> Vec<u8> {
    format!("s{service}").into_bytes()
}

/// A good name of any length, of every good byte.
pub fn odd_name(random: &mut Random) -> Vec<u8> {
    const BYTES: &[u8] = b"abcxyzABCXYZ0189-_.";
    let length = match random.below(4) {
        0 => 32,
        1 => 1,
        _ => random.between(1, 32),
    };
    (0..length).map(|_| *random.pick(BYTES)).collect()
}

fn sketch_settings(random: &mut Random, manner: Manner) -> Vec<Setting> {
    let service_type = match random.below(10) {
        0..=4 => ServiceType::Process,
        5..=7 => ServiceType::Scripted,
        _ => ServiceType::Internal,
    };
    let mut settings = vec![Setting::word("type", service_type.word())];
    let unused_command = manner.unused_settings && random.one_in(3);
    if service_type != ServiceType::Internal || unused_command {
        settings.push(command(random, "command"));
    }
    let unused_stop_command = manner.unused_settings && random.one_in(3);
    if (service_type == ServiceType::Scripted && !random.one_in(3)) || unused_stop_command {
        settings.push(command(random, "stop-command"));
    }
    if random.one_in(2) {
        let word = *random.pick(&["yes", "true", "yes", "no", "false"]);
        settings.push(Setting::word("restart", word));
    }
    if random.one_in(8) {
        let word = *random.pick(&["no", "false"]);
        settings.push(Setting::word("smooth-recovery", word));
    }
    for property in ["restart-delay", "restart-limit-interval", "start-timeout", "stop-timeout"] {
        if random.one_in(2) {
            let mut time = if manner.odd_times { odd_time(random) } else { short_time(random) };
            let is_timeout = property.ends_with("timeout");
            let is_zero = time.bytes().all(|byte| byte == b'0' || byte == b'.');
            if is_timeout && is_zero && !manner.zero_timeouts {
                time = "0.0001".to_string();
            }
            settings.push(Setting::word(property, &time));
        }
    }
    if random.one_in(2) {
        let count = *random.pick(&["0", "1", "2", "3", "00001", "65535"]);
        settings.push(Setting::word("restart-limit-count", count));
    }
    if random.one_in(3) {
        let signal = *random.pick(&Signal::ALL);
        settings.push(Setting::word("term-signal", signal.word()));
    }
    settings
}

fn command(random: &mut Random, property: &'static str) -> Setting {
    let mut tokens = vec![token(random)];
    if tokens[0].is_empty() {
        tokens[0] = b"run".to_vec();
    }
    while random.one_in(2) {
        tokens.push(token(random));
    }
    Setting { property, tokens }
}

/// A token of any good bytes, seldom empty.
fn token(random: &mut Random) -> Vec<u8> {
    const PLAIN: &[u8] = b"abcdefgh/-=:.$0123";
    const ODD: &[u8] = b" \t\x0b\x0c\r#\"\\$=:\x80\xff'`@";
    let length = match random.below(12) {
        0 => 0,
        _ => random.between(1, 6),
    };
    let odd = random.one_in(3);
    let mut byte = || match random.below(6) {
        0 if odd => *random.pick(ODD),
        1 if odd => random.between(128, 255) as u8,
        2 if odd => random.between(33, 126) as u8,
        _ => *random.pick(PLAIN),
    };
    (0..length).map(|_| byte()).collect()
}

fn short_time(random: &mut Random) -> String {
    random.pick(&["0", "0", "0.0001", "0.2", "0.5", "1", "3", "5.0", "10", "60"]).to_string()
}

fn odd_time(random: &mut Random) -> String {
    const TIMES: [&str; 10] = [
        "0",
        "0.2",
        "86400",
        "086400",
        "86400.0000",
        "86399.9999",
        "000000",
        "0.0001",
        "000005.5",
        "1.05",
    ];
    if random.one_in(2) {
        return random.pick(&TIMES).to_string();
    }
    let seconds = random.below(86_400).to_string();
    match random.below(3) {
        0 => seconds,
        1 => format!("{seconds}.{}", random.below(10_000)),
        _ => format!("{seconds}.{:04}", random.below(10_000)),
    }
}

/// Dependencies along a random order of the services, so that none closes a
/// cycle; at most 16 of each service.
fn add_dependencies(random: &mut Random, sketches: &mut [Sketch]) {
    let size = sketches.len();
    let mut order: Vec<usize> = (0..size).collect();
    random.shuffle(&mut order);
    if random.one_in(3) {
        order.sort();
    }
    let density = random.between(1, 5);
    for later in 0..size {
        let mut count = 0;
        for earlier in 0..later {
            let near = later - earlier <= 2;
            if count < 16 && (random.one_in(1 + density) || (near && random.one_in(2))) {
                let name = sketches[order[earlier]].name.clone();
                let setting = Setting { property: often_hard(random).word(), tokens: vec![name] };
                sketches[order[later]].settings.push(setting);
                count += 1;
            }
        }
    }
}

/// A kind of dependency, every second time the hard one.
fn often_hard(random: &mut Random) -> Kind {
    match random.below(4) {
        0 => Kind::DependsMs,
        1 => Kind::WaitsFor,
        _ => Kind::DependsOn,
    }
}
