//! The paper's small program (paper 01, "The program reads names"): it reads
//! names, one a line, loads the files of these names, and says what it loaded
//! or why it did not.

use crate::loader::{self, Part, Refusal, LONGEST_TEXT, LONGEST_TOTAL};

/// The bytes of standard input that are read.
pub const INPUT_BYTES: usize = 65_536;

/// The names that are kept, and the bytes of each.
const KEPT_NAMES: usize = 33;
const KEPT_NAME_BYTES: usize = 33;

/// The bytes that are read of each file: one more than a text may have.
const FILE_BYTES: usize = LONGEST_TEXT + 1;

/// Room enough for the tokens of any set of texts.
const TOKEN_ROOM: usize = 65_536;

/// The folder of descriptions.
pub trait Files {
    /// The first bytes of a file, at most `most`; none where it cannot be
    /// opened or read.
    fn read(&mut self, name: &[u8], most: usize) -> Option<Vec<u8>>;
}

/// The whole output of the program for these bytes of standard input.
pub fn check_services(input: &[u8], files: &mut impl Files) -> Vec<u8> {
    let names = kept_names(&input[..input.len().min(INPUT_BYTES)]);
    if let Err(refusal) = refuse_kept_names(&names) {
        return refusal_line(refusal).into_bytes();
    }
    match read_texts(&names, files) {
        Err(service) => format!("unreadable {service}\n").into_bytes(),
        Ok(texts) => load_texts(&names, &texts),
    }
}

/// The names, one a line; the last line needs no newline.
fn kept_names(input: &[u8]) -> Vec<&[u8]> {
    let mut lines: Vec<&[u8]> = input.split(|byte| *byte == b'\n').collect();
    if lines.last().is_some_and(|line| line.is_empty()) {
        lines.pop();
    }
    lines
        .into_iter()
        .take(KEPT_NAMES)
        .map(|line| &line[..line.len().min(KEPT_NAME_BYTES)])
        .collect()
}

/// Numbers 1, 3 and 4, before any file is opened.
fn refuse_kept_names(names: &[&[u8]]) -> Result<(), Refusal> {
    let (bytes, positions) = lend(names, &vec![Vec::new(); names.len()]);
    let parts: Vec<Part> = loader::parts_of(&bytes, &positions)?;
    loader::refuse_names(&parts)
}

/// Opens the files in order and stops reading once the texts pass 32,768
/// bytes; gives the number of the first that cannot be opened or read.
fn read_texts(names: &[&[u8]], files: &mut impl Files) -> Result<Vec<Vec<u8>>, usize> {
    let mut texts = Vec::new();
    let mut total = 0;
    for (service, name) in names.iter().enumerate() {
        let text = if total > LONGEST_TOTAL {
            Vec::new()
        } else {
            files.read(name, FILE_BYTES).ok_or(service)?
        };
        total += text.len();
        texts.push(text);
    }
    Ok(texts)
}

/// The lent bytes and positions of names and texts.
pub fn lend(names: &[&[u8]], texts: &[Vec<u8>]) -> (Vec<u8>, Vec<u64>) {
    let mut bytes = Vec::new();
    let mut positions = Vec::new();
    for (name, text) in names.iter().zip(texts) {
        bytes.extend_from_slice(name);
        positions.push(bytes.len() as u64);
        bytes.extend_from_slice(text);
        positions.push(bytes.len() as u64);
    }
    (bytes, positions)
}

fn load_texts(names: &[&[u8]], texts: &[Vec<u8>]) -> Vec<u8> {
    let (bytes, positions) = lend(names, texts);
    let mut buffer = vec![0; TOKEN_ROOM];
    match loader::load(&bytes, &positions, &mut buffer) {
        Err(refusal) => refusal_line(refusal).into_bytes(),
        Ok(set) => {
            let names: Vec<&[u8]> = names.to_vec();
            loaded_lines(&names, &set.table)
        }
    }
}

/// A line for each service, and `ok` with their number.
pub fn loaded_lines(names: &[&[u8]], table: &crate::engine::Table) -> Vec<u8> {
    let mut output = Vec::new();
    for service in table.numbers() {
        output.extend_from_slice(format!("{service} ").as_bytes());
        output.extend_from_slice(names[service]);
        let word = table.services[service].service_type.word();
        output.extend_from_slice(format!(" {word}\n").as_bytes());
    }
    output.extend_from_slice(format!("ok {}\n", table.count).as_bytes());
    output
}

pub fn refusal_line(refusal: Refusal) -> String {
    let Refusal { number, service, line, column } = refusal;
    format!("refused {number} service {service} line {line} column {column}\n")
}
