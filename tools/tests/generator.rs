//! The generator: every refusal, and every place of a text where one is met,
//! clause, rule, type, kind and signal is used, and the same seed gives
//! the same cases, today and later.

use tools::generate::histogram::histogram;
use tools::generate::{generate, CaseKind};
use tools::reduce::reduce;

#[test]
fn nothing_expected_is_missing_from_the_histogram() {
    let counted = histogram(7, 2_000);
    assert_eq!(counted.missing(), Vec::<&String>::new());
}

#[test]
fn a_case_follows_from_kind_seed_and_index() {
    for kind in CaseKind::ALL {
        assert_eq!(generate(kind, 3, 5), generate(kind, 3, 5));
        assert_ne!(generate(kind, 3, 5), generate(kind, 3, 6));
        assert_ne!(generate(kind, 3, 5), generate(kind, 4, 5));
    }
}

/// A checksum (FNV-1a) of the first cases of a kind, as they are written.
fn checksum(kind: CaseKind) -> u64 {
    let cases = (0..200).map(|index| generate(kind, 1, index).written());
    cases.flat_map(String::into_bytes).fold(0xcbf2_9ce4_8422_2325, |sum, byte| {
        (sum ^ u64::from(byte)).wrapping_mul(0x100_0000_01b3)
    })
}

/// second/README.md names the runs of the comparison by their seeds. Where the generator is
/// changed, those are other cases: make the runs again, and change these numbers.
#[test]
fn a_seed_gives_the_cases_that_it_gave_before() {
    let before = [0xc51c_64ed_4553_7ddb, 0x0e23_777b_7c01_ba6c, 0x024c_58b4_b3f9_1f99];
    assert_eq!(CaseKind::ALL.map(checksum), before);
}

#[test]
fn a_list_is_made_small_while_what_matters_remains() {
    let numbers: Vec<u64> = (0..100).collect();
    let kept = reduce(&numbers, &mut |rest| rest.contains(&17) && rest.contains(&80));
    assert_eq!(kept, [17, 80]);
}
