//! Compares two programs over fixed and generated cases.

use std::path::{Path, PathBuf};
use std::process::ExitCode;
use tools::compare::{compare, Order, Programs};
use tools::generate::CaseKind;

const USAGE: &str = "\
usage: compare [--kind sets|scenarios|folders|all] [--seed S] [--count N]
               [--brief] [--keep FOLDER] PROGRAM PROGRAM
sets and scenarios take two programs `simulate`, folders two `check_services`;
all takes two folders that hold both, or SIMULATE SIMULATE CHECK CHECK;
with no kind, two programs get sets and scenarios, and all else gets all";

fn main() -> ExitCode {
    match asked()
        .and_then(|(programs, order)| compare(&programs, &order).map_err(|error| error.to_string()))
    {
        Ok(true) => ExitCode::SUCCESS,
        Ok(false) => ExitCode::FAILURE,
        Err(message) => {
            eprintln!("{message}");
            ExitCode::from(2)
        }
    }
}

fn asked() -> Result<(Programs, Order), String> {
    let usage = || USAGE.to_string();
    let mut order = Order { kinds: Vec::new(), seed: 1, count: 1_000, brief: false, keep: None };
    let mut paths: Vec<PathBuf> = Vec::new();
    let mut words = std::env::args().skip(1);
    while let Some(word) = words.next() {
        if !word.starts_with("--") {
            let path = Path::new(&word).canonicalize();
            paths.push(path.map_err(|error| format!("{word}: {error}"))?);
            continue;
        }
        if word == "--brief" {
            order.brief = true;
            continue;
        }
        let value = words.next().ok_or_else(usage)?;
        match (word.as_str(), value.as_str()) {
            ("--kind", "all") => order.kinds = CaseKind::ALL.to_vec(),
            ("--kind", kind) => order.kinds = vec![CaseKind::from_word(kind).ok_or_else(usage)?],
            ("--keep", folder) => order.keep = Some(PathBuf::from(folder)),
            ("--seed", number) => order.seed = number.parse().map_err(|_| usage())?,
            ("--count", number) => order.count = number.parse().map_err(|_| usage())?,
            _ => return Err(usage()),
        }
    }
    if order.kinds.is_empty() {
        order.kinds = if paths.len() == 2 && paths.iter().all(|path| path.is_file()) {
            vec![CaseKind::Sets, CaseKind::Scenarios]
        } else {
            CaseKind::ALL.to_vec()
        };
    }
    Ok((programs_of(&paths, &order.kinds).ok_or_else(usage)?, order))
}

/// A folder stands for the program of this name in it.
fn program_in(path: &Path, name: &str) -> PathBuf {
    if path.is_dir() {
        path.join(name)
    } else {
        path.to_path_buf()
    }
}

fn programs_of(paths: &[PathBuf], kinds: &[CaseKind]) -> Option<Programs> {
    let both = |paths: &[PathBuf], name: &str| {
        Some([program_in(&paths[0], name), program_in(&paths[1], name)])
    };
    let folders = kinds.contains(&CaseKind::Folders);
    let scenarios = kinds.iter().any(|kind| *kind != CaseKind::Folders);
    let all_are_folders = paths.iter().all(|path| path.is_dir());
    match paths.len() {
        2 if folders && scenarios && !all_are_folders => None,
        2 => Some(Programs {
            simulate: if scenarios { both(paths, "simulate") } else { None },
            check_services: if folders { both(paths, "check_services") } else { None },
        }),
        4 if folders && scenarios => Some(Programs {
            simulate: both(&paths[..2], "simulate"),
            check_services: both(&paths[2..], "check_services"),
        }),
        _ => None,
    }
}
