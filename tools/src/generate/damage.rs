//! Damage to the texts of a set: one kind of fault for each number.

use super::bad_lines::{bad_byte, bad_line, dressed};
use super::sketch::{odd_name, plain_name};
use super::texts::{filled_to, Given};
use crate::random::Random;
use second::engine::Kind;
use second::text::{is_white_space, lines_of};

/// Puts a line into a text: as the first, as the last, or at any place.
fn insert_line(random: &mut Random, text: &mut Vec<u8>, line: &[u8]) {
    let count = lines_of(text).len();
    let place = match random.below(3) {
        0 => 0,
        1 => count,
        _ => random.below(count as u64 + 1) as usize,
    };
    insert_line_at(random, text, line, place);
}

/// Puts a line into a text at this place. A new last line may lack its newline.
fn insert_line_at(random: &mut Random, text: &mut Vec<u8>, line: &[u8], place: usize) {
    let mut lines = lines_of(text);
    let is_last = place == lines.len();
    let newline = if is_last { random.one_in(2) } else { text.ends_with(b"\n") };
    lines.insert(place, line);
    let mut longer = lines.join(&b'\n');
    if newline {
        longer.push(b'\n');
    }
    *text = longer;
}

/// Damages a set at this service so that, most often, this number is given.
pub fn damage(random: &mut Random, set: &mut Vec<Given>, place: usize, number: u64) {
    match number {
        1 => {
            while set.len() < 33 {
                let name = plain_name(100 + set.len());
                set.push(Given { name, text: b"type=internal\n".to_vec() });
            }
        }
        3 => set[place].name = bad_name(random),
        4 => {
            let other = random.below(set.len() as u64) as usize;
            set[place].name = set[other].name.clone();
            if other == place {
                let copy = set[place].clone();
                set.push(copy);
            }
        }
        5 => make_long(random, set, place),
        6 if random.one_in(3) => {
            let at = random.below(set[place].text.len() as u64 + 1) as usize;
            set[place].text.insert(at, bad_byte(random));
        }
        6..=11 => {
            let line = bad_line(random, number);
            if random.one_in(6) {
                // It is the only line.
                set[place].text.clear();
            }
            insert_line(random, &mut set[place].text, &line);
        }
        12 => many_dependencies(random, &mut set[place].text),
        13 => remove_lines(&mut set[place].text, b"type"),
        14 => remove_lines(&mut set[place].text, b"command"),
        15 => {
            let line = dependency_line(random, "absent");
            insert_line(random, &mut set[place].text, &line);
        }
        16 => close_a_cycle(random, set, place),
        _ => change_a_byte(random, &mut set[place].text),
    }
}

fn bad_name(random: &mut Random) -> Vec<u8> {
    match random.below(5) {
        0 => Vec::new(),
        1 => vec![b'n'; 33],
        2 => {
            let mut name = odd_name(random);
            name.truncate(31);
            let at = random.below(name.len() as u64 + 1) as usize;
            name.insert(at, *random.pick(b" /:@[`{\x80\x00\r+"));
            name
        }
        3 => b"a b".to_vec(),
        _ => vec![b'n'; 32 + random.below(3) as usize],
    }
}

fn make_long(random: &mut Random, set: &mut Vec<Given>, place: usize) {
    if random.one_in(2) {
        set[place].text = filled_to(&set[place].text, 4_096 + random.below(2) as usize);
        return;
    }
    while set.len() < 9 {
        let name = plain_name(200 + set.len());
        set.push(Given { name, text: b"type=internal\n".to_vec() });
    }
    // The total comes to 32,768, or one more.
    let goal = 32_768 + random.below(2) as usize;
    let mut total: usize = set.iter().map(|given| given.text.len()).sum();
    for given in set.iter_mut() {
        let room = 4_096usize.saturating_sub(given.text.len());
        let wanted = goal.saturating_sub(total).min(room);
        let before = given.text.len();
        given.text = filled_to(&given.text, before + wanted);
        total += given.text.len() - before;
    }
}

/// A dependency of any kind on this name.
fn dependency_line(random: &mut Random, name: &str) -> Vec<u8> {
    let kind = *random.pick(&["depends-on", "depends-ms", "waits-for"]);
    dressed(random, format!("{kind}:{name}").as_bytes(), b"")
}

/// 16 to 18 dependencies beside those of the text, and repeats that count once;
/// or 17 in all, the last of them on the last line.
fn many_dependencies(random: &mut Random, text: &mut Vec<u8>) {
    let at_the_end = random.one_in(2);
    let count = if at_the_end { 16 } else { random.between(16, 18) };
    if at_the_end {
        for kind in Kind::ALL {
            remove_lines(text, kind.word().as_bytes());
        }
    }
    for dependency in 0..count {
        let line = dependency_line(random, &format!("d{dependency}"));
        insert_line(random, text, &line);
        if random.one_in(3) {
            insert_line(random, text, &line);
        }
    }
    if at_the_end {
        let line = dependency_line(random, "last");
        let count = lines_of(text).len();
        insert_line_at(random, text, &line, count);
    }
}

/// Takes out the lines whose property begins so.
fn remove_lines(text: &mut Vec<u8>, property: &[u8]) {
    let keeps = |line: &&[u8]| {
        let begin = line.iter().take_while(|byte| is_white_space(**byte)).count();
        !line[begin..].starts_with(property)
    };
    let lines: Vec<&[u8]> = text.split(|byte| *byte == b'\n').filter(keeps).collect();
    *text = lines.join(&b'\n');
}

fn close_a_cycle(random: &mut Random, set: &mut [Given], place: usize) {
    let length = random.between(1, set.len().min(4) as u64) as usize;
    for step in 0..length {
        let from = (place + step) % set.len();
        let to = (place + (step + 1) % length) % set.len();
        let kind = *random.pick(&["depends-on", "depends-ms", "waits-for"]);
        let mut line = format!("{kind} = ").into_bytes();
        line.extend_from_slice(&set[to].name.clone());
        insert_line(random, &mut set[from].text, &line);
    }
}

/// A change of one byte anywhere: removed, doubled, replaced or put in.
pub fn change_a_byte(random: &mut Random, text: &mut Vec<u8>) {
    const BYTES: &[u8] = b" \t\n\r\"\\#=:.-az09\x00\x7f\x80";
    if text.is_empty() {
        text.push(*random.pick(BYTES));
        return;
    }
    let at = random.below(text.len() as u64) as usize;
    match random.below(4) {
        0 => {
            text.remove(at);
        }
        1 => text.insert(at, text[at]),
        2 => text[at] = *random.pick(BYTES),
        _ => text.insert(at, *random.pick(BYTES)),
    }
}
