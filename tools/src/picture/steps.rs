//! The steps of a run: which lines are drawn, how they are taken apart, and
//! what is said of those that are not drawn.

use super::answers::Answered;

/// The lines before the last load, and those from it on. After a load all is
/// fresh, so no lane can go on from what came before it.
pub fn split<'a, 'b>(lines: &'b [Answered<'a>]) -> (&'b [Answered<'a>], &'b [Answered<'a>]) {
    lines.split_at(lines.iter().rposition(Answered::is_load).unwrap_or(0))
}

/// A scenario of the last load and the calls after it, with a `state` after
/// each step, and a `show` wherever the table is another.
pub fn of(earlier: &[Answered], last: &[Answered]) -> Vec<u8> {
    let mut steps = Vec::new();
    for line in earlier.iter().filter(|line| line.is_of_a_service()) {
        put(&mut steps, &[line.line]);
    }
    for line in last {
        match line.word() {
            b"load" | b"table" => put(&mut steps, &[line.line, b"show", b"state"]),
            b"run" if !line.is_refused() => {
                (0..count(line)).for_each(|_| put(&mut steps, &[b"next", b"state"]));
            }
            _ if count(line) > 0 => put(&mut steps, &[line.line, b"state"]),
            _ => {}
        }
    }
    steps
}

fn put(steps: &mut Vec<u8>, lines: &[&[u8]]) {
    for line in lines {
        steps.extend_from_slice(line);
        steps.push(b'\n');
    }
}

/// How many steps a line is: an action is one, and so is a call, also a
/// refused one; what changes nothing is none.
fn count(line: &Answered) -> usize {
    let Some(answer) = line.answer.first() else { return 0 };
    match line.word() {
        _ if line.is_refused() => 1,
        b"show" | b"state" | b"query" => 0,
        b"run" => answer.split("; ").count() - 1,
        b"next" => usize::from(*answer != "quiet"),
        _ => 1,
    }
}

/// What is said of the steps that are not drawn; nothing where all are.
pub fn note(earlier: &[Answered], last: &[Answered]) -> String {
    let steps: usize = earlier.iter().map(count).sum();
    match (steps, last.first()) {
        (0, _) | (_, None) => String::new(),
        (1, Some(load)) => {
            format!("The step before the load on line {} is not drawn.", load.number)
        }
        (_, Some(load)) => {
            format!("The {steps} steps before the load on line {} are not drawn.", load.number)
        }
    }
}
