//! The comparison: two programs get the same cases, and the first difference
//! is shown whole and made small.

use crate::case::{printable, Case, Entry, Folder};
use crate::fixed::fixed_cases;
use crate::generate::{generate, CaseKind};
use crate::reduce::reduce;
use std::ffi::OsStr;
use std::fs::{self, File};
use std::io::{self, Read};
use std::os::unix::ffi::OsStrExt;
use std::os::unix::process::ExitStatusExt;
use std::path::{Path, PathBuf};
use std::process::{Command, Stdio};
use std::sync::mpsc;
use std::thread;
use std::time::{Duration, Instant};

/// A program that has not closed its output by then counts as hanging.
const TIME_LIMIT: Duration = Duration::from_secs(10);

/// How long a difference is made small.
const REDUCING: Duration = Duration::from_secs(60);

/// How often the progress is reported.
const PROGRESS: Duration = Duration::from_secs(5);

/// More output than this is cut, and the program ended.
const MOST_OUTPUT: u64 = 64 * 1024 * 1024;

/// The two programs of each kind.
#[derive(Clone, Debug, Default)]
pub struct Programs {
    pub simulate: Option<[PathBuf; 2]>,
    pub check_services: Option<[PathBuf; 2]>,
}

impl Programs {
    fn for_case(&self, case: &Case) -> Option<&[PathBuf; 2]> {
        match case {
            Case::Scenario(_) => self.simulate.as_ref(),
            Case::Folder(_) => self.check_services.as_ref(),
        }
    }
}

/// What a comparison is asked for. The count is of all cases, fixed ones included.
pub struct Order {
    pub kinds: Vec<CaseKind>,
    pub seed: u64,
    pub count: u64,
    /// Only names the case that differs.
    pub brief: bool,
    /// The folder where the case made small is put.
    pub keep: Option<PathBuf>,
}

/// How a program came to its end. The exit status is not looked at.
#[derive(Clone, Copy, PartialEq, Eq, Debug)]
pub enum Ending {
    Exited,
    BySignal(i32),
    TimeLimit,
}

#[derive(Clone, PartialEq, Eq, Debug)]
pub struct Outcome {
    pub output: Vec<u8>,
    pub ending: Ending,
}

/// The names, in a folder where a case is put, of the standard input and
/// of the folder in which `check_services` runs.
const INPUT: &str = "input";
const SERVICES: &str = "services";

/// Writes the files of a case.
fn lay_out(case: &Case, place: &Path) -> io::Result<()> {
    match case {
        Case::Scenario(input) => fs::write(place.join(INPUT), input),
        Case::Folder(folder) => {
            fs::write(place.join(INPUT), &folder.input)?;
            lay_out_entries(folder, &place.join(SERVICES))
        }
    }
}

fn lay_out_entries(folder: &Folder, services: &Path) -> io::Result<()> {
    if services.exists() {
        fs::remove_dir_all(services)?;
    }
    fs::create_dir_all(services)?;
    for (name, entry) in &folder.entries {
        let path = services.join(OsStr::from_bytes(name));
        match entry {
            Entry::File(text) => fs::write(path, text)?,
            Entry::Directory => fs::create_dir(path)?,
            Entry::LostLink => std::os::unix::fs::symlink("to/nothing", path)?,
        }
    }
    Ok(())
}

/// A folder of one's own for the files of a case; removed at the end.
pub struct Workshop {
    folder: PathBuf,
}

impl Workshop {
    pub fn new() -> io::Result<Workshop> {
        let folder = std::env::temp_dir().join(format!("compare-{}", std::process::id()));
        fs::create_dir_all(&folder)?;
        Ok(Workshop { folder })
    }

    /// Runs one program over the case that is put there.
    fn run(&self, program: &Path, case: &Case) -> io::Result<Outcome> {
        let mut command = Command::new(program);
        command
            .stdin(File::open(self.folder.join(INPUT))?)
            .stdout(Stdio::piped())
            .stderr(Stdio::null());
        if let Case::Folder(_) = case {
            command.current_dir(self.folder.join(SERVICES));
        }
        let mut child = command.spawn()?;
        let stdout = child.stdout.take().ok_or_else(|| io::Error::other("no output"))?;
        let (sender, receiver) = mpsc::channel();
        thread::spawn(move || {
            let mut output = Vec::new();
            let _ = stdout.take(MOST_OUTPUT).read_to_end(&mut output);
            let _ = sender.send(output);
        });
        match receiver.recv_timeout(TIME_LIMIT) {
            Ok(output) => {
                if output.len() as u64 == MOST_OUTPUT {
                    child.kill()?;
                }
                let status = child.wait()?;
                let ending = status.signal().map_or(Ending::Exited, Ending::BySignal);
                Ok(Outcome { output, ending })
            }
            Err(_) => {
                child.kill()?;
                child.wait()?;
                Ok(Outcome { output: Vec::new(), ending: Ending::TimeLimit })
            }
        }
    }

    /// The outcomes of both programs over a case.
    pub fn outcomes(&self, programs: &[PathBuf; 2], case: &Case) -> io::Result<[Outcome; 2]> {
        lay_out(case, &self.folder)?;
        Ok([self.run(&programs[0], case)?, self.run(&programs[1], case)?])
    }

    fn differs(&self, programs: &[PathBuf; 2], case: &Case) -> bool {
        self.outcomes(programs, case).is_ok_and(|outcomes| !agree(&outcomes))
    }
}

/// The same output, and both programs came to their end by themselves: a fault
/// or a hang is a difference even where both have it.
fn agree(outcomes: &[Outcome; 2]) -> bool {
    outcomes[0].output == outcomes[1].output
        && outcomes.iter().all(|outcome| outcome.ending == Ending::Exited)
}

impl Drop for Workshop {
    fn drop(&mut self) {
        let _ = fs::remove_dir_all(&self.folder);
    }
}

/// Compares the programs up to the first case in which they differ; true
/// where none does.
pub fn compare(programs: &Programs, order: &Order) -> io::Result<bool> {
    let workshop = Workshop::new()?;
    let mut reported = Instant::now();
    let mut compared = 0;
    let first = fixed_cases_of(&order.kinds);
    let fixed = first.len() as u64;
    let rest = (0..order.count.saturating_sub(fixed)).map(|index| generated_case(order, index));
    for (name, case) in first.into_iter().chain(rest) {
        let Some(pair) = programs.for_case(&case) else {
            return Err(io::Error::other("a program for this kind of case is not given"));
        };
        let outcomes = workshop.outcomes(pair, &case)?;
        compared += 1;
        if !agree(&outcomes) {
            println!("difference in {name}");
            if !order.brief {
                let small = show_difference(&workshop, pair, &case, &outcomes);
                keep(&small, order.keep.as_deref())?;
            }
            println!("compared {compared} cases ({} fixed), a difference", fixed.min(compared));
            return Ok(false);
        }
        if reported.elapsed() >= PROGRESS {
            reported = Instant::now();
            eprintln!("compared {compared} of {} cases", order.count.max(fixed));
        }
    }
    println!("compared {compared} cases ({fixed} fixed), no difference");
    Ok(true)
}

/// The fixed cases of these kinds with their names.
fn fixed_cases_of(kinds: &[CaseKind]) -> Vec<(String, Case)> {
    fixed_cases()
        .into_iter()
        .filter(|fixed| kinds.iter().any(|kind| is_of_kind(&fixed.case, *kind)))
        .map(|fixed| (format!("fixed case: {}", fixed.name), fixed.case))
        .collect()
}

/// The generated case of this index with its name; the kinds take turns.
fn generated_case(order: &Order, index: u64) -> (String, Case) {
    let kind = order.kinds[(index % order.kinds.len() as u64) as usize];
    let name = format!("{} seed {} index {index}", kind.word(), order.seed);
    (name, generate(kind, order.seed, index))
}

/// Lays the case out in the folder, if one is asked for.
fn keep(case: &Case, folder: Option<&Path>) -> io::Result<()> {
    let Some(folder) = folder else {
        return Ok(());
    };
    fs::create_dir_all(folder)?;
    lay_out(case, folder)
}

fn is_of_kind(case: &Case, kind: CaseKind) -> bool {
    matches!(case, Case::Folder(_)) == (kind == CaseKind::Folders)
}

/// Shows the case and its outcomes, whole and made small; gives the small one.
fn show_difference(
    workshop: &Workshop,
    programs: &[PathBuf; 2],
    case: &Case,
    outcomes: &[Outcome; 2],
) -> Case {
    show_case(case, outcomes);
    let small = made_small(workshop, programs, case);
    if let Ok(outcomes) = workshop.outcomes(programs, &small) {
        println!("made small:");
        show_case(&small, &outcomes);
    }
    small
}

fn show_case(case: &Case, outcomes: &[Outcome; 2]) {
    println!("---- the case");
    println!("{}", case.written());
    for (which, outcome) in ["first", "second"].into_iter().zip(outcomes) {
        println!("---- the {which} program answers ({})", ending_words(outcome.ending));
        println!("{}", printable(&outcome.output));
    }
    let lines: Vec<Vec<String>> = outcomes
        .iter()
        .map(|outcome| printable(&outcome.output).split('\n').map(str::to_string).collect())
        .collect();
    let most = lines[0].len().max(lines[1].len());
    let first = (0..most).find(|line| lines[0].get(*line) != lines[1].get(*line));
    if let Some(line) = first {
        println!("---- the first line that differs: {}", line + 1);
        for (which, lines) in ["first", "second"].into_iter().zip(&lines) {
            println!("{which}: {}", lines.get(line).map_or("(no line)", String::as_str));
        }
    }
}

fn ending_words(ending: Ending) -> String {
    match ending {
        Ending::Exited => "exited".to_string(),
        Ending::BySignal(signal) => format!("ended by signal {signal}"),
        Ending::TimeLimit => format!("not done after {} seconds", TIME_LIMIT.as_secs()),
    }
}

/// A smaller case in which the programs still differ.
fn made_small(workshop: &Workshop, programs: &[PathBuf; 2], case: &Case) -> Case {
    let until = Instant::now() + REDUCING;
    let differs = |case: &Case| Instant::now() < until && workshop.differs(programs, case);
    match case {
        Case::Scenario(input) => {
            let lines = lines_with_ends(input);
            let kept = reduce(&lines, &mut |lines| differs(&Case::Scenario(lines.concat())));
            Case::Scenario(kept.concat())
        }
        Case::Folder(folder) => Case::Folder(smaller_folder(folder, &differs)),
    }
}

fn smaller_folder(folder: &Folder, differs: &dyn Fn(&Case) -> bool) -> Folder {
    let mut small = folder.clone();
    let names = lines_with_ends(&small.input);
    let kept = reduce(&names, &mut |names| {
        differs(&Case::Folder(Folder { input: names.concat(), ..small.clone() }))
    });
    small.input = kept.concat();
    let entries = reduce(&small.entries, &mut |entries| {
        differs(&Case::Folder(Folder { entries: entries.to_vec(), ..small.clone() }))
    });
    small.entries = entries;
    for place in 0..small.entries.len() {
        let Entry::File(text) = small.entries[place].1.clone() else {
            continue;
        };
        let kept = reduce(&lines_with_ends(&text), &mut |lines| {
            let mut tried = small.clone();
            tried.entries[place].1 = Entry::File(lines.concat());
            differs(&Case::Folder(tried))
        });
        small.entries[place].1 = Entry::File(kept.concat());
    }
    small
}

fn lines_with_ends(bytes: &[u8]) -> Vec<Vec<u8>> {
    bytes.split_inclusive(|byte| *byte == b'\n').map(<[u8]>::to_vec).collect()
}
