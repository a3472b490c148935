//! The binaries of the second program, run as the comparison runs them, answer
//! every fixed case as paper 01 says.

mod second_program;

use second_program::second_program;
use tools::case::{printable, Case};
use tools::compare::{Ending, Workshop};
use tools::fixed::fixed_cases;

#[test]
fn the_binaries_answer_every_fixed_case() {
    let workshop = Workshop::new().expect("a folder for the cases");
    for fixed in fixed_cases() {
        let program = match fixed.case {
            Case::Scenario(_) => second_program("simulate"),
            Case::Folder(_) => second_program("check_services"),
        };
        let outcomes = workshop.outcomes(&[program.clone(), program], &fixed.case);
        for outcome in outcomes.expect("the programs run") {
            assert_eq!(outcome.ending, Ending::Exited, "{}", fixed.name);
            assert_eq!(printable(&outcome.output), printable(&fixed.expected), "{}", fixed.name);
        }
    }
}
