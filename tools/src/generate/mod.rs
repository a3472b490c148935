//! The generator: one case for each kind, seed and index.

pub mod bad_lines;
pub mod builder;
pub mod damage;
pub mod folders;
pub mod histogram;
pub mod places;
pub mod scenarios;
pub mod sets;
pub mod sketch;
pub mod states;
pub mod texts;

use crate::case::Case;
use crate::random::Random;

/// The kinds of cases.
#[derive(Clone, Copy, PartialEq, Eq, Debug)]
pub enum CaseKind {
    Sets,
    Scenarios,
    Folders,
}

impl CaseKind {
    pub const ALL: [CaseKind; 3] = [CaseKind::Sets, CaseKind::Scenarios, CaseKind::Folders];

    pub fn word(self) -> &'static str {
        match self {
            CaseKind::Sets => "sets",
            CaseKind::Scenarios => "scenarios",
            CaseKind::Folders => "folders",
        }
    }

    pub fn from_word(word: &str) -> Option<CaseKind> {
        CaseKind::ALL.into_iter().find(|it| it.word() == word)
    }
}

/// The case of this kind, seed and index.
pub fn generate(kind: CaseKind, seed: u64, index: u64) -> Case {
    let mut random = Random::new(seed, kind as u64, index);
    match kind {
        CaseKind::Sets => Case::Scenario(sets::set_case(&mut random)),
        CaseKind::Folders => Case::Folder(folders::folder_case(&mut random)),
        CaseKind::Scenarios => Case::Scenario(match random.below(100) {
            0..=54 => scenarios::call_case(&mut random),
            55..=74 => states::free_state_case(&mut random),
            75..=91 => states::clause_case(&mut random),
            92..=98 => scenarios::odd_case(&mut random),
            _ => scenarios::cut_case(&mut random),
        }),
    }
}
