//! The loops of the benchmark answer the same on the plain and on the careful
//! engine, and the texts of its load are accepted.

use second::loader::load;
use std::io::Write;
use std::process::{Command, Stdio};

const BENCH: &str = env!("CARGO_BIN_EXE_bench");

fn written(words: &[&str], input: &[u8]) -> Vec<u8> {
    let mut child = Command::new(BENCH)
        .args(words)
        .stdin(Stdio::piped())
        .stdout(Stdio::piped())
        .spawn()
        .expect("the program starts");
    child.stdin.take().expect("it has an input").write_all(input).expect("it reads its input");
    let output = child.wait_with_output().expect("the program ends");
    assert!(output.status.success(), "{words:?}");
    output.stdout
}

#[test]
fn both_engines_give_the_same_checksums() {
    let loops =
        ["next-quiet", "next-launch", "start", "stop", "stop-all", "end", "clock", "query", "run"];
    for name in loops {
        for services in ["2", "8", "32"] {
            let plain = written(&["plain", name, services, "100"], b"");
            let careful = written(&["careful", name, services, "100"], b"");
            assert_eq!(plain, careful, "{name} {services}");
        }
    }
}

#[test]
fn the_texts_of_the_load_are_accepted() {
    for services in [2, 8, 32] {
        let texts = written(&["texts", &services.to_string()], b"");
        let ends = (0..services).flat_map(|service| [service * 1_027 + 3, (service + 1) * 1_027]);
        let positions: Vec<u64> = ends.collect();
        let set = load(&texts, &positions, &mut [0; 65_536]).expect("the texts are accepted");
        assert_eq!(set.table.count, services);
        let all = set.table.numbers().map(|service| set.table.services[service]);
        assert_eq!(all.filter(|service| !service.depends_on.members().is_empty()).count(), {
            services as usize - 1
        });
    }
}

#[test]
fn the_checksum_of_a_load_tells_a_refusal() {
    let texts = written(&["texts", "8"], b"");
    let accepted = written(&["plain", "load", "8", "2"], &texts);
    let refused = written(&["plain", "load", "8", "2"], &texts[..texts.len() - 1]);
    assert_ne!(accepted, refused);
}
