//! The lines of a scenario, each with what `simulate` answered to it, and the
//! lines that keep a scenario from being drawn.

use crate::case::printable;
use second::scenario::lines_of;
use std::iter::Peekable;
use std::str::Lines;

/// A line with its answer, which may have several lines or none.
pub struct Answered<'a> {
    /// Counted from 1.
    pub number: usize,
    pub line: &'a [u8],
    pub answer: Vec<&'a str>,
}

impl Answered<'_> {
    pub fn word(&self) -> &[u8] {
        first_word(self.line)
    }

    /// Whether it gives a name or a text of a service.
    pub fn is_of_a_service(&self) -> bool {
        self.line.starts_with(b"service ") || matches!(self.line.first(), Some(b'|' | b'!'))
    }

    pub fn is_load(&self) -> bool {
        self.word() == b"load" && !self.is_bad()
    }

    pub fn is_refused(&self) -> bool {
        self.answer.last().is_some_and(|answer| answer.starts_with("refused "))
    }

    fn is_bad(&self) -> bool {
        self.answer.first().is_some_and(|answer| answer.starts_with("bad line "))
    }
}

fn first_word(line: &[u8]) -> &[u8] {
    line.split(|byte| *byte == b' ').next().unwrap_or_default()
}

/// The lines with their answers; or why the answers are not those to the lines.
pub fn answered<'a>(scenario: &'a [u8], answers: &'a str) -> Result<Vec<Answered<'a>>, String> {
    let mut rest = answers.lines().peekable();
    let mut lines = Vec::new();
    for (index, line) in lines_of(scenario).into_iter().enumerate() {
        let number = index + 1;
        let answer = taken(number, line, &mut rest)
            .ok_or_else(|| format!("line {number} has no answer: {}", printable(line)))?;
        lines.push(Answered { number, line, answer });
    }
    match rest.next() {
        None => Ok(lines),
        Some(answer) => Err(format!("no line has the answer: {answer}")),
    }
}

/// Takes the answer to a line from the answers that are left.
fn taken<'a>(number: usize, line: &[u8], rest: &mut Peekable<Lines<'a>>) -> Option<Vec<&'a str>> {
    let bad = format!("bad line {number}");
    if let Some(answer) = rest.next_if(|answer| **answer == bad) {
        return Some(vec![answer]);
    }
    let says_nothing = matches!(line.first(), None | Some(b'%' | b'|' | b'!'));
    if says_nothing || line.starts_with(b"service ") {
        return Some(Vec::new());
    }
    match first_word(line) {
        b"load" => {
            up_to(rest, |answer| answer.starts_with("ok ") || answer.starts_with("refused "))
        }
        b"show" => up_to(rest, |answer| answer.starts_with("tokens ")),
        b"state" => {
            let mut answer = vec![rest.next()?];
            while let Some(record) = rest.next_if(|answer| answer.contains(" wanted=")) {
                answer.push(record);
            }
            Some(answer)
        }
        _ => Some(vec![rest.next()?]),
    }
}

/// The answers up to the one that is the last of its line.
fn up_to<'a>(rest: &mut Peekable<Lines<'a>>, last: impl Fn(&str) -> bool) -> Option<Vec<&'a str>> {
    let mut answer = Vec::new();
    loop {
        answer.push(rest.next()?);
        if answer.last().is_some_and(|line| last(line)) {
            return Some(answer);
        }
    }
}

/// What keeps a scenario from being drawn: its bad lines and refused loads.
/// After a refused load no set is loaded, and every call is a bad line: these
/// are not listed.
pub fn faults_in(lines: &[Answered]) -> Vec<String> {
    let mut faults = Vec::new();
    let mut load_is_refused = false;
    for line in lines {
        let text = format!("line {}: {}", line.number, printable(line.line));
        if line.is_load() {
            load_is_refused = line.is_refused();
            if load_is_refused {
                faults.push(format!("{text}: the load is refused: {}", line.answer.join("; ")));
            }
        } else if line.is_bad() && !load_is_refused {
            faults.push(format!("{text}: bad line"));
        }
    }
    if faults.is_empty() && !lines.iter().any(Answered::is_load) {
        faults.push("no set is loaded".to_string());
    }
    faults
}
