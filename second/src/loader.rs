//! The loader of a set of descriptions (paper 01, "Numbers given back"). The
//! set is lent as bytes and positions, for each service its name's end, then
//! its text's. "Order: 1; 2; all names, 3 then 4 each; all texts, 5; then each
//! text in turn: 6 over the whole text, its lines, 13, 14; then 15 by service
//! and line; 16; 25."

use crate::engine::types::{Service, Table, PLACES};
use crate::text::{is_good_name, read_text, Dependency, Description, Fault};

/// The most bytes of one text, and of all texts together.
pub const LONGEST_TEXT: usize = 4_096;
pub const LONGEST_TOTAL: usize = 32_768;

/// A load refusal carries service number, line and column (W-201).
#[derive(Clone, Copy, PartialEq, Eq, Debug)]
pub struct Refusal {
    pub number: u64,
    pub service: u64,
    pub line: u64,
    pub column: u64,
}

impl Refusal {
    fn of_set(number: u64) -> Refusal {
        Refusal::of_service(number, 0)
    }

    fn of_service(number: u64, service: usize) -> Refusal {
        Refusal { number, service: service as u64, line: 0, column: 0 }
    }

    fn of_text(fault: Fault, service: usize) -> Refusal {
        let Fault { number, line, column } = fault;
        Refusal { number, service: service as u64, line, column }
    }

    /// Number 15 carries the line that names the absent service, and column 1.
    fn of_absent(dependency: &Dependency, service: usize) -> Refusal {
        Refusal { number: 15, service: service as u64, line: dependency.line, column: 1 }
    }
}

/// A name and its text, as parts of the lent bytes.
pub struct Part<'a> {
    pub name: &'a [u8],
    pub text: &'a [u8],
}

/// A loaded set: the table, and the number of bytes written to the buffer.
#[derive(Debug)]
pub struct LoadedSet {
    pub table: Table,
    pub written: usize,
}

/// Loads the lent set and writes the tokens to the lent buffer. On a refusal
/// the buffer is untouched.
pub fn load(bytes: &[u8], positions: &[u64], buffer: &mut [u8]) -> Result<LoadedSet, Refusal> {
    let parts = parts_of(bytes, positions)?;
    refuse_names(&parts)?;
    refuse_lengths(&parts)?;
    let mut descriptions = Vec::new();
    for (service, part) in parts.iter().enumerate() {
        let description = read_text(part.text).map_err(|fault| Refusal::of_text(fault, service))?;
        descriptions.push(description);
    }
    let table = table_of(&parts, &descriptions)?;
    if let Some(service) = lowest_on_a_cycle(&table) {
        return Err(Refusal::of_service(16, service));
    }
    let tokens = token_bytes(&descriptions);
    if tokens.len() > buffer.len() {
        return Err(Refusal::of_set(25));
    }
    buffer[..tokens.len()].copy_from_slice(&tokens);
    Ok(LoadedSet { table, written: tokens.len() })
}

/// Numbers 1 and 2: the positions cut the bytes into names and texts.
pub fn parts_of<'a>(bytes: &'a [u8], positions: &[u64]) -> Result<Vec<Part<'a>>, Refusal> {
    if positions.len() / 2 > PLACES {
        return Err(Refusal::of_set(1));
    }
    if !positions.len().is_multiple_of(2) {
        return Err(Refusal::of_set(2));
    }
    let mut last = 0;
    for position in positions {
        if *position < last {
            return Err(Refusal::of_set(2));
        }
        last = *position;
    }
    if last != bytes.len() as u64 {
        return Err(Refusal::of_set(2));
    }
    let mut parts = Vec::new();
    let mut begin = 0;
    for pair in positions.chunks(2) {
        let (name_end, text_end) = (pair[0] as usize, pair[1] as usize);
        parts.push(Part { name: &bytes[begin..name_end], text: &bytes[name_end..text_end] });
        begin = text_end;
    }
    Ok(parts)
}

/// Numbers 3 and 4, for each name in turn.
pub fn refuse_names(parts: &[Part]) -> Result<(), Refusal> {
    for (service, part) in parts.iter().enumerate() {
        if !is_good_name(part.name) {
            return Err(Refusal::of_service(3, service));
        }
        if parts[..service].iter().any(|earlier| earlier.name == part.name) {
            return Err(Refusal::of_service(4, service));
        }
    }
    Ok(())
}

/// Number 5: a text passes 4,096 bytes, or the running total passes 32,768.
fn refuse_lengths(parts: &[Part]) -> Result<(), Refusal> {
    let mut total = 0;
    for (service, part) in parts.iter().enumerate() {
        total += part.text.len();
        if part.text.len() > LONGEST_TEXT || total > LONGEST_TOTAL {
            return Err(Refusal::of_service(5, service));
        }
    }
    Ok(())
}

/// The table of the descriptions; 15, by service and line, for a dependency on
/// a service not in the set.
fn table_of(parts: &[Part], descriptions: &[Description]) -> Result<Table, Refusal> {
    let mut table = Table::EMPTY;
    table.count = parts.len() as u64;
    for (service, description) in descriptions.iter().enumerate() {
        let place = &mut table.services[service];
        *place = settings_of(description);
        for dependency in &description.dependencies {
            let found = parts.iter().position(|part| part.name == dependency.name);
            let Some(number) = found else {
                return Err(Refusal::of_absent(dependency, service));
            };
            place.dependencies_mut(dependency.kind).holds[number] = true;
        }
    }
    Ok(table)
}

fn settings_of(description: &Description) -> Service {
    let count = |command: &Option<Vec<Vec<u8>>>| command.as_ref().map_or(0, Vec::len) as u64;
    Service {
        service_type: description.service_type.expect("a text that is read has a type"),
        restart: description.restart,
        restart_delay: description.restart_delay,
        restart_limit_interval: description.restart_limit_interval,
        restart_limit_count: description.restart_limit_count,
        start_timeout: description.start_timeout,
        stop_timeout: description.stop_timeout,
        term_signal: description.term_signal,
        command_tokens: count(&description.command),
        stop_command_tokens: count(&description.stop_command),
        ..Service::UNUSED
    }
}

/// Number 16: the lowest service that reaches itself by the three kinds.
fn lowest_on_a_cycle(table: &Table) -> Option<usize> {
    table.numbers().find(|service| reaches(table, *service, *service))
}

/// Whether one service reaches another by one dependency or more.
fn reaches(table: &Table, from: usize, to: usize) -> bool {
    let mut reached = [false; PLACES];
    let mut open = vec![from];
    while let Some(dependent) = open.pop() {
        for dependency in table.numbers() {
            let linked = table.services[dependent].depends_by_any_kind(dependency);
            if linked && !reached[dependency] {
                reached[dependency] = true;
                open.push(dependency);
            }
        }
    }
    reached[to]
}

/// "The tokens of the standing commands, unused ones too, [...] by service,
/// command before stop-command, each followed by a zero byte".
fn token_bytes(descriptions: &[Description]) -> Vec<u8> {
    let mut bytes = Vec::new();
    for description in descriptions {
        for command in [&description.command, &description.stop_command] {
            for token in command.iter().flatten() {
                bytes.extend_from_slice(token);
                bytes.push(0);
            }
        }
    }
    bytes
}
