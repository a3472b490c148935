//! Every fixed case gets the answer that paper 01 gives, and there are as many
//! as second/README.md says.

use std::collections::BTreeSet;
use tools::case::{printable, Case};
use tools::fixed::fixed_cases;

#[test]
fn every_fixed_case_is_answered_as_the_paper_says() {
    for fixed in fixed_cases() {
        let answer = printable(&fixed.case.own_answer());
        assert_eq!(answer, printable(&fixed.expected), "fixed case: {}", fixed.name);
    }
}

#[test]
fn there_are_192_fixed_scenarios_and_16_fixed_folders() {
    let cases = fixed_cases();
    let folders = cases.iter().filter(|fixed| matches!(fixed.case, Case::Folder(_))).count();
    assert_eq!((cases.len() - folders, folders), (192, 16));
    let names: BTreeSet<String> = cases.iter().map(|fixed| fixed.name.to_string()).collect();
    assert_eq!(names.len(), cases.len());
}
