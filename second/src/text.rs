//! One description text (paper 01, "Reading a text"): its bytes, its lines,
//! its values, and the settings and dependencies it gives, or its first fault
//! of the numbers 6 to 14.

use crate::engine::types::*;

/// A fault in a text: its number, and the line and column, both from 1, of the
/// byte that decided it; line and column 0 for 13 and 14.
#[derive(Clone, Copy, PartialEq, Eq, Debug)]
pub struct Fault {
    pub number: u64,
    pub line: u64,
    pub column: u64,
}

impl Fault {
    fn of_text(number: u64) -> Fault {
        Fault { number, line: 0, column: 0 }
    }
}

/// A fault in a line: its number, and the place, from 0, of the byte that
/// decided it. A missing byte has the place past the line, its length.
#[derive(Clone, Copy, PartialEq, Eq, Debug)]
pub struct LineFault {
    pub number: u64,
    pub place: usize,
}

impl LineFault {
    fn at(place: usize, number: u64) -> LineFault {
        LineFault { number, place }
    }

    fn in_line(self, line: u64) -> Fault {
        Fault { number: self.number, line, column: self.place as u64 + 1 }
    }
}

/// A dependency as it stands in a text, with the line that first names it.
#[derive(Clone, PartialEq, Eq, Debug)]
pub struct Dependency {
    pub kind: Kind,
    pub name: Vec<u8>,
    pub line: u64,
}

/// The tokens of a command; none where there is no command.
pub type Command = Option<Vec<Vec<u8>>>;

/// What a text says: its standing settings and its dependencies.
#[derive(Clone, PartialEq, Eq, Debug)]
pub struct Description {
    pub service_type: Option<ServiceType>,
    pub command: Command,
    pub stop_command: Command,
    pub restart: bool,
    pub restart_delay: u64,
    pub restart_limit_interval: u64,
    pub restart_limit_count: u64,
    pub start_timeout: u64,
    pub stop_timeout: u64,
    pub term_signal: Signal,
    pub dependencies: Vec<Dependency>,
}

impl Description {
    /// What a text of no lines says: the defaults.
    pub fn unsaid() -> Description {
        Description {
            service_type: None,
            command: None,
            stop_command: None,
            restart: false,
            restart_delay: DEFAULT_RESTART_DELAY,
            restart_limit_interval: DEFAULT_LIMIT_INTERVAL,
            restart_limit_count: DEFAULT_LIMIT_COUNT,
            start_timeout: DEFAULT_START_TIMEOUT,
            stop_timeout: DEFAULT_STOP_TIMEOUT,
            term_signal: Signal::Term,
            dependencies: Vec::new(),
        }
    }
}

/// The most dependencies of one service, the three kinds together.
pub const MOST_DEPENDENCIES: usize = 16;

/// White space: bytes 32, 9, 11, 12, 13.
pub fn is_white_space(byte: u8) -> bool {
    matches!(byte, 32 | 9 | 11 | 12 | 13)
}

/// "All others below 32 but the newline, and 127, are bad."
pub fn is_bad_byte(byte: u8) -> bool {
    (byte < 32 && byte != b'\n' && !is_white_space(byte)) || byte == 127
}

/// A name is 1 to 32 of a-z A-Z 0-9 `-` `_` `.` (number 3).
pub fn is_good_name(name: &[u8]) -> bool {
    (1..=32).contains(&name.len())
        && name.iter().all(|byte| {
            byte.is_ascii_lowercase()
                || byte.is_ascii_uppercase()
                || byte.is_ascii_digit()
                || matches!(byte, b'-' | b'_' | b'.')
        })
}

/// Reads one text: 6 over the whole text, its lines, 13, 14.
pub fn read_text(text: &[u8]) -> Result<Description, Fault> {
    refuse_bad_bytes(text)?;
    let mut description = Description::unsaid();
    for (line_number, line) in (1..).zip(lines_of(text)) {
        read_line(line, line_number, &mut description)
            .map_err(|fault| fault.in_line(line_number))?;
    }
    let Some(service_type) = description.service_type else {
        return Err(Fault::of_text(13));
    };
    if service_type != ServiceType::Internal && description.command.is_none() {
        return Err(Fault::of_text(14));
    }
    Ok(description)
}

/// A newline ends a line; the last may lack it.
pub fn lines_of(text: &[u8]) -> Vec<&[u8]> {
    let mut lines: Vec<&[u8]> = text.split(|byte| *byte == b'\n').collect();
    if lines.last().is_some_and(|line| line.is_empty()) {
        lines.pop();
    }
    lines
}

/// Number 6: the first bad byte of the text.
fn refuse_bad_bytes(text: &[u8]) -> Result<(), Fault> {
    for (line_number, line) in (1..).zip(lines_of(text)) {
        if let Some(place) = line.iter().position(|byte| is_bad_byte(*byte)) {
            return Err(LineFault::at(place, 6).in_line(line_number));
        }
    }
    Ok(())
}

/// "In a line: 7 for name and sign; 10; value from left (7, 9, at its end 8);
/// 11; 12." Gives the line's first fault. What decides 10 is the first byte of
/// the name; 11 and 12, the first after the sign that is no white space.
fn read_line(
    line: &[u8],
    line_number: u64,
    description: &mut Description,
) -> Result<(), LineFault> {
    let name = after_white_space(line, 0);
    if matches!(line.get(name), None | Some(b'#')) {
        return Ok(());
    }
    let name_end = after_name(line, name)?;
    let sign = sign_after(line, name_end)?;
    let property = Property::from_name(&line[name..name_end]).ok_or(LineFault::at(name, 10))?;
    let tokens = read_value(line, sign + 1)?;
    let value = after_white_space(line, sign + 1);
    set_property(property, tokens, line_number, description)
        .map_err(|number| LineFault::at(value, number))
}

/// The place of the first byte from here on that is no white space, or the
/// line's length.
fn after_white_space(line: &[u8], from: usize) -> usize {
    from + line[from..].iter().take_while(|byte| is_white_space(**byte)).count()
}

/// The place after a property name, one or more of a-z, `-` and `.`; 7 where
/// there is none.
fn after_name(line: &[u8], from: usize) -> Result<usize, LineFault> {
    let is_name_byte = |byte: &&u8| byte.is_ascii_lowercase() || matches!(**byte, b'-' | b'.');
    match line[from..].iter().take_while(is_name_byte).count() {
        0 => Err(LineFault::at(from, 7)),
        length => Ok(from + length),
    }
}

/// The place of the sign, `=` or `:`, after optional white space; 7 where
/// another byte, or none, stands in its place.
fn sign_after(line: &[u8], from: usize) -> Result<usize, LineFault> {
    let sign = after_white_space(line, from);
    match line.get(sign) {
        Some(b'=') | Some(b':') => Ok(sign),
        _ => Err(LineFault::at(sign, 7)),
    }
}

/// The tokens of the value that begins here, from the left: split at white
/// space neither quoted nor escaped. A misplaced `#` is 7, a last backslash 9,
/// a quote that opens and is not closed 8.
pub fn read_value(line: &[u8], from: usize) -> Result<Vec<Vec<u8>>, LineFault> {
    let mut tokens: Vec<Vec<u8>> = Vec::new();
    let mut token: Option<Vec<u8>> = None;
    let mut open_quote: Option<usize> = None;
    let mut place = from;
    while place < line.len() {
        let byte = line[place];
        if byte == b'\\' {
            let literal = line.get(place + 1).ok_or(LineFault::at(place, 9))?;
            token.get_or_insert_with(Vec::new).push(*literal);
            place += 1;
        } else if byte == b'"' {
            token.get_or_insert_with(Vec::new);
            open_quote = if open_quote.is_some() { None } else { Some(place) };
        } else if open_quote.is_some() {
            token.get_or_insert_with(Vec::new).push(byte);
        } else if is_white_space(byte) {
            tokens.extend(token.take());
        } else if byte == b'#' {
            if token.is_some() {
                return Err(LineFault::at(place, 7));
            }
            break;
        } else {
            token.get_or_insert_with(Vec::new).push(byte);
        }
        place += 1;
    }
    if let Some(quote) = open_quote {
        return Err(LineFault::at(quote, 8));
    }
    tokens.extend(token);
    Ok(tokens)
}

/// The properties of paper 01.
#[derive(Clone, Copy, PartialEq, Eq, Debug)]
enum Property {
    Type,
    Command,
    StopCommand,
    Restart,
    SmoothRecovery,
    RestartDelay,
    RestartLimitInterval,
    RestartLimitCount,
    StartTimeout,
    StopTimeout,
    Dependency(Kind),
    TermSignal,
}

impl Property {
    /// Property names are compared byte for byte; others are unknown.
    fn from_name(name: &[u8]) -> Option<Property> {
        match name {
            b"type" => Some(Property::Type),
            b"command" => Some(Property::Command),
            b"stop-command" => Some(Property::StopCommand),
            b"restart" => Some(Property::Restart),
            b"smooth-recovery" => Some(Property::SmoothRecovery),
            b"restart-delay" => Some(Property::RestartDelay),
            b"restart-limit-interval" => Some(Property::RestartLimitInterval),
            b"restart-limit-count" => Some(Property::RestartLimitCount),
            b"start-timeout" => Some(Property::StartTimeout),
            b"stop-timeout" => Some(Property::StopTimeout),
            b"depends-on" => Some(Property::Dependency(Kind::DependsOn)),
            b"depends-ms" => Some(Property::Dependency(Kind::DependsMs)),
            b"waits-for" => Some(Property::Dependency(Kind::WaitsFor)),
            b"term-signal" => Some(Property::TermSignal),
            _ => None,
        }
    }
}

/// Puts a value into the description: 11 where it is outside its property's
/// rule, 12 for a 17th dependency. A later setting replaces an earlier one.
fn set_property(
    property: Property,
    tokens: Vec<Vec<u8>>,
    line: u64,
    description: &mut Description,
) -> Result<(), u64> {
    match property {
        Property::Type => {
            let word = only_token(&tokens)?;
            description.service_type = Some(ServiceType::from_word(word).ok_or(11u64)?);
        }
        Property::Command => description.command = Some(good_command(tokens)?),
        Property::StopCommand => description.stop_command = Some(good_command(tokens)?),
        Property::Restart => description.restart = yes_or_no(only_token(&tokens)?)?,
        Property::SmoothRecovery => {
            if yes_or_no(only_token(&tokens)?)? {
                return Err(11);
            }
        }
        Property::RestartDelay => description.restart_delay = time(only_token(&tokens)?)?,
        Property::RestartLimitInterval => {
            description.restart_limit_interval = time(only_token(&tokens)?)?;
        }
        Property::RestartLimitCount => {
            description.restart_limit_count = limit_count(only_token(&tokens)?)?;
        }
        Property::StartTimeout => description.start_timeout = time(only_token(&tokens)?)?,
        Property::StopTimeout => description.stop_timeout = time(only_token(&tokens)?)?,
        Property::Dependency(kind) => {
            add_dependency(kind, only_token(&tokens)?, line, description)?;
        }
        Property::TermSignal => {
            let word = only_token(&tokens)?;
            description.term_signal = Signal::from_word(word).ok_or(11u64)?;
        }
    }
    Ok(())
}

/// The value of a property that is no command is exactly one token.
fn only_token(tokens: &[Vec<u8>]) -> Result<&[u8], u64> {
    match tokens {
        [token] => Ok(token),
        _ => Err(11),
    }
}

/// "there is a first token and it is not empty".
fn good_command(tokens: Vec<Vec<u8>>) -> Result<Vec<Vec<u8>>, u64> {
    match tokens.first() {
        Some(first) if !first.is_empty() => Ok(tokens),
        _ => Err(11),
    }
}

fn yes_or_no(word: &[u8]) -> Result<bool, u64> {
    match word {
        b"yes" | b"true" => Ok(true),
        b"no" | b"false" => Ok(false),
        _ => Err(11),
    }
}

/// One to `most` digits, and their value.
fn digits(bytes: &[u8], most: usize) -> Result<u64, u64> {
    if !(1..=most).contains(&bytes.len()) || !bytes.iter().all(u8::is_ascii_digit) {
        return Err(11);
    }
    Ok(bytes.iter().fold(0, |value, digit| value * 10 + u64::from(digit - b'0')))
}

/// "Times: one to six digits, then optionally a point and one to four digits,
/// at most 86400 seconds, held in units of 0.1 ms."
pub fn time(word: &[u8]) -> Result<u64, u64> {
    let units = match word.iter().position(|byte| *byte == b'.') {
        None => digits(word, 6)? * 10_000,
        Some(point) => {
            let fraction = &word[point + 1..];
            let mut padded = fraction.to_vec();
            while padded.len() < 4 {
                padded.push(b'0');
            }
            digits(fraction, 4)?;
            digits(&word[..point], 6)? * 10_000 + digits(&padded, 4)?
        }
    };
    if units > LONGEST_TIME {
        return Err(11);
    }
    Ok(units)
}

/// "Limit count: one to five digits, 0 to 65,535".
fn limit_count(word: &[u8]) -> Result<u64, u64> {
    let count = digits(word, 5)?;
    if count > LARGEST_COUNT {
        return Err(11);
    }
    Ok(count)
}

/// "Dependencies add up; the same kind and name twice counts once." A 17th
/// distinct pair is 12.
fn add_dependency(
    kind: Kind,
    name: &[u8],
    line: u64,
    description: &mut Description,
) -> Result<(), u64> {
    if !is_good_name(name) {
        return Err(11);
    }
    let repeated =
        description.dependencies.iter().any(|other| other.kind == kind && other.name == name);
    if repeated {
        return Ok(());
    }
    if description.dependencies.len() == MOST_DEPENDENCIES {
        return Err(12);
    }
    description.dependencies.push(Dependency { kind, name: name.to_vec(), line });
    Ok(())
}
