//! The histogram of the generator: how often each refusal number, and where in
//! a text, each clause of list 24, each rule, type, kind and setting was
//! used.

use super::{generate, places, CaseKind};
use crate::case::Case;
use second::engine::list24::{too_many_services, CLAUSES};
use second::engine::rules::{first_fitting, RULES};
use second::engine::{list24, Kind, Service, ServiceType, Signal, State, Table};
use second::loader::{load, parts_of};
use second::scenario::{lines_of, Runner, INPUT_BYTES};
use std::collections::BTreeMap;

/// Counts by what is counted.
#[derive(Default)]
pub struct Histogram {
    counts: BTreeMap<String, u64>,
}

impl Histogram {
    /// A histogram with a place, at 0, for all that must be used.
    pub fn expecting() -> Histogram {
        let mut histogram = Histogram::default();
        for number in (1..=16).chain([25]) {
            histogram.expect(format!("load refused {number:02}"));
        }
        places::expected().into_iter().for_each(|what| histogram.expect(what));
        for number in [1, 3, 4].into_iter().chain(5..=16) {
            histogram.expect(format!("folder refused {number:02}"));
        }
        histogram.expect("folder unreadable".to_string());
        for number in 20..=25 {
            histogram.expect(format!("call refused {number:02}"));
        }
        histogram.expect("list 24 alone: more than 32 services".to_string());
        for clause in &CLAUSES {
            histogram.expect(format!("list 24 alone: {}", clause.name));
        }
        for rule in &RULES {
            for service_type in ServiceType::ALL {
                let internal = service_type == ServiceType::Internal;
                if !(internal && rule.number == 7) {
                    histogram.expect(format!("rule {} {}", rule.number, service_type.word()));
                }
            }
        }
        for signal in Signal::ALL {
            histogram.expect(format!("loaded term-signal {}", signal.word()));
        }
        for kind in Kind::ALL {
            histogram.expect(format!("loaded {}", kind.word()));
        }
        histogram
    }

    fn expect(&mut self, what: String) {
        self.counts.entry(what).or_insert(0);
    }

    fn count(&mut self, what: String) {
        *self.counts.entry(what).or_insert(0) += 1;
    }

    /// What was expected and never came.
    pub fn missing(&self) -> Vec<&String> {
        self.counts.iter().filter(|(_, count)| **count == 0).map(|(what, _)| what).collect()
    }

    pub fn lines(&self) -> String {
        self.counts.iter().map(|(what, count)| format!("{count:>9}  {what}\n")).collect()
    }

    /// Runs a case and counts what is used in it.
    pub fn add(&mut self, case: &Case) {
        match case {
            Case::Folder(_) => {
                let answer = String::from_utf8_lossy(&case.own_answer()).into_owned();
                let words: Vec<&str> = answer.split_whitespace().collect();
                match words.as_slice() {
                    ["refused", number, ..] => self.count(format!("folder refused {number:0>2}")),
                    ["unreadable", _] => self.count("folder unreadable".to_string()),
                    _ => self.count("folder ok".to_string()),
                }
            }
            Case::Scenario(input) => {
                let mut runner = Runner::new();
                for line in lines_of(&input[..input.len().min(INPUT_BYTES)]) {
                    let before = runner.clone();
                    let answer = runner.line(line);
                    self.count_line(line, &answer, &before, &runner);
                }
            }
        }
    }

    fn count_line(&mut self, line: &[u8], answer: &[u8], before: &Runner, after: &Runner) {
        if answer.is_empty() {
            return;
        }
        let line = String::from_utf8_lossy(line).into_owned();
        let call = line.split(' ').next().unwrap_or_default().to_string();
        let answer = String::from_utf8_lossy(answer).into_owned();
        let words: Vec<&str> = answer.split_whitespace().collect();
        match words.as_slice() {
            ["bad", "line", _] => self.count("bad line".to_string()),
            ["refused", number, "service", ..] => {
                self.count(format!("load refused {number:0>2}"));
                self.count_place(&line, before);
            }
            ["refused", number] => {
                self.count(format!("call refused {number:0>2}"));
                self.count(format!("call {call} refused {number:0>2}"));
                if let Some(loaded) = before.loaded() {
                    self.count_clause(&loaded.table, &loaded.state);
                }
            }
            _ if call == "load" => self.count_load(after),
            _ => {
                self.count(format!("call {call} answered"));
                if let (Some(loaded), "next" | "run") = (before.loaded(), call.as_str()) {
                    self.count_rules(&loaded.table, &loaded.state, call == "run");
                }
            }
        }
    }

    /// Where in its text a refused load was decided, if it lent the services as
    /// they are given and not at other positions.
    fn count_place(&mut self, line: &str, before: &Runner) {
        let (bytes, positions) = before.lent();
        let own_positions = line.split(' ').count() == 2;
        let (Ok(parts), Err(refusal), true) =
            (parts_of(&bytes, &positions), load(&bytes, &positions, &mut []), own_positions)
        else {
            return;
        };
        let text = parts.get(refusal.service as usize).map_or(&b""[..], |part| part.text);
        places::holding(text, &refusal).into_iter().for_each(|what| self.count(what));
    }

    /// The clause of list 24 that alone decides, if one does.
    fn count_clause(&mut self, table: &Table, state: &State) {
        if too_many_services(table) {
            self.count("list 24 alone: more than 32 services".to_string());
            return;
        }
        let broken: Vec<&str> = CLAUSES
            .iter()
            .filter(|clause| (clause.broken)(table, state))
            .map(|clause| clause.name)
            .collect();
        if let [alone] = broken.as_slice() {
            self.count(format!("list 24 alone: {alone}"));
        }
    }

    fn count_rules(&mut self, table: &Table, state: &State, to_quiet: bool) {
        if list24::ill_formed(table, state) {
            return;
        }
        let mut state = state.clone();
        while let Some((rule, service)) = first_fitting(table, &state) {
            let word = table.services[service].service_type.word();
            self.count(format!("rule {} {word}", rule.number));
            (rule.apply)(table, &mut state, service);
            if !to_quiet {
                return;
            }
        }
        self.count("rule 9 (quiet)".to_string());
    }

    fn count_load(&mut self, after: &Runner) {
        let Some(loaded) = after.loaded() else {
            return;
        };
        self.count("load ok".to_string());
        for service in loaded.table.numbers() {
            self.count_settings(&loaded.table.services[service]);
        }
    }

    fn count_settings(&mut self, service: &Service) {
        self.count(format!("loaded type {}", service.service_type.word()));
        self.count(format!("loaded term-signal {}", service.term_signal.word()));
        self.count(format!("loaded restart {}", if service.restart { "yes" } else { "no" }));
        for kind in Kind::ALL {
            if !service.dependencies(kind).members().is_empty() {
                self.count(format!("loaded {}", kind.word()));
            }
        }
        let numbers = [
            ("restart-delay", service.restart_delay),
            ("restart-limit-interval", service.restart_limit_interval),
            ("restart-limit-count", service.restart_limit_count),
            ("start-timeout", service.start_timeout),
            ("stop-timeout", service.stop_timeout),
        ];
        let defaults = Service::UNUSED;
        let default_numbers = [
            defaults.restart_delay,
            defaults.restart_limit_interval,
            defaults.restart_limit_count,
            defaults.start_timeout,
            defaults.stop_timeout,
        ];
        for ((name, value), default) in numbers.into_iter().zip(default_numbers) {
            if value == 0 {
                self.count(format!("loaded {name} 0"));
            } else if value != default {
                self.count(format!("loaded {name} not the default"));
            }
        }
    }
}

/// The histogram of the first cases of every kind.
pub fn histogram(seed: u64, cases: u64) -> Histogram {
    let mut histogram = Histogram::expecting();
    for kind in CaseKind::ALL {
        for index in 0..cases {
            histogram.add(&generate(kind, seed, index));
        }
    }
    histogram
}
