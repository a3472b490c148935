//! Writes one generated case, or the histogram of many.

use std::io::{self, Write};
use std::process::exit;
use tools::case::Case;
use tools::generate::histogram::histogram;
use tools::generate::{generate, CaseKind};

const USAGE: &str = "\
usage: generate [--kind sets|scenarios|folders] [--seed S] [--index I]
       generate --histogram N [--seed S]";

fn fail() -> ! {
    eprintln!("{USAGE}");
    exit(2)
}

fn main() -> io::Result<()> {
    let (mut kind, mut seed, mut index, mut cases) = (CaseKind::Scenarios, 1, 0, None);
    let mut words = std::env::args().skip(1);
    while let Some(option) = words.next() {
        let value = words.next().unwrap_or_else(|| fail());
        let number = || value.parse::<u64>().unwrap_or_else(|_| fail());
        match option.as_str() {
            "--kind" => kind = CaseKind::from_word(&value).unwrap_or_else(|| fail()),
            "--seed" => seed = number(),
            "--index" => index = number(),
            "--histogram" => cases = Some(number()),
            _ => fail(),
        }
    }
    if let Some(cases) = cases {
        let counted = histogram(seed, cases);
        print!("{}", counted.lines());
        println!("{cases} cases of each kind, {} expected and missing", counted.missing().len());
        exit(if counted.missing().is_empty() { 0 } else { 1 });
    }
    match generate(kind, seed, index) {
        Case::Scenario(input) => io::stdout().lock().write_all(&input),
        case @ Case::Folder(_) => io::stdout().lock().write_all(case.written().as_bytes()),
    }
}
