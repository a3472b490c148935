//! Cases of the kind `folders`: names on standard input, and files of these
//! names; missing files, directories in their place, texts at their limits,
//! too many, too long, repeated and empty names.

use super::sets::given_set;
use super::texts::filled_to;
use crate::case::{Entry, Folder};
use crate::random::Random;
use second::text::is_good_name;

pub fn folder_case(random: &mut Random) -> Folder {
    let set = given_set(random);
    let mut entries: Vec<(Vec<u8>, Entry)> = Vec::new();
    for given in &set {
        let taken = entries.iter().any(|(name, _)| *name == given.name);
        let is_folder = given.name == b"." || given.name == b"..";
        if is_good_name(&given.name) && !taken && !is_folder {
            entries.push((given.name.clone(), Entry::File(given.text.clone())));
        }
    }
    if random.one_in(6) {
        fill_files(random, &mut entries);
    }
    if !entries.is_empty() && random.one_in(7) {
        let place = random.below(entries.len() as u64) as usize;
        match random.below(3) {
            0 => entries[place].1 = Entry::Directory,
            1 => entries[place].1 = Entry::LostLink,
            _ => {
                entries.remove(place);
            }
        }
    }
    let mut lines: Vec<Vec<u8>> = set.iter().map(|given| given.name.clone()).collect();
    change_names(random, &mut lines);
    let mut input = lines.join(&b'\n');
    if !random.one_in(3) {
        input.push(b'\n');
    }
    if random.one_in(60) {
        input = long_input(random, &input);
    }
    Folder { input, entries }
}

/// Brings the files to lengths whose total passes 32,768 or just does not.
fn fill_files(random: &mut Random, entries: &mut [(Vec<u8>, Entry)]) {
    for (_, entry) in entries.iter_mut() {
        if let Entry::File(text) = entry {
            let length = *random.pick(&[4_096usize, 4_096, 4_096, 4_097, 5_000, 3_000]);
            *text = filled_to(text, length);
        }
    }
}

fn change_names(random: &mut Random, lines: &mut Vec<Vec<u8>>) {
    let place = random.below(lines.len() as u64 + 1) as usize;
    match random.below(22) {
        0 => lines.insert(place, Vec::new()),
        1 => lines.insert(place, b"missing".to_vec()),
        2 => lines.insert(place, vec![b'n'; random.between(31, 40) as usize]),
        3 => {
            for number in 0..random.between(25, 40) {
                lines.push(format!("more{number}").into_bytes());
            }
        }
        4 => {
            if let Some(line) = lines.first().cloned() {
                lines.insert(place, line);
            }
        }
        5 => {
            if let Some(line) = lines.last_mut() {
                line.push(*random.pick(b"\r /\x00"));
            }
        }
        6 => lines.insert(place, random.pick(&[b".".to_vec(), b"..".to_vec()]).clone()),
        _ => {}
    }
}

/// An input that passes 65,536 bytes.
fn long_input(random: &mut Random, input: &[u8]) -> Vec<u8> {
    let mut long = input.to_vec();
    let byte = *random.pick(b"a\n");
    while long.len() < 65_536 + random.below(40) as usize {
        long.push(byte);
    }
    long
}
