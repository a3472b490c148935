//! Cases of the kind `sets`: sets of descriptions, valid, damaged and at every
//! limit, loaded with their own positions and room and with others.

use super::builder::{kept_whole, Builder};
use super::damage::{change_a_byte, damage};
use super::sketch::{set_size, sketch_set, Manner};
use super::texts::{filled_to, ornate_text, plain_text, Given};
use crate::random::Random;

/// The numbers that damage to a set can bring about, those with many forms more
/// often; 99 is a changed byte.
const DAMAGES: [u64; 48] = [
    1, 3, 4, 4, 5, 5, 6, 6, 7, 7, 7, 7, 7, 8, 8, 9, 9, 10, 10, 11, 11, 11, 11, 11, 11, 11, 11, 11,
    12, 12, 13, 13, 13, 14, 14, 14, 15, 15, 15, 16, 16, 16, 16, 16, 16, 16, 99, 99,
];

/// The numbers that carry a line and a column, in the same way.
const PLACED: [u64; 11] = [6, 6, 7, 7, 8, 9, 10, 11, 11, 12, 15];

/// A set of `size` services with good texts.
fn good_set(random: &mut Random, size: usize) -> Vec<Given> {
    let manner =
        Manner { odd_names: true, odd_times: true, unused_settings: true, zero_timeouts: true };
    let sketches = sketch_set(random, size, manner);
    let plain = random.one_in(4);
    let mut set: Vec<Given> = Vec::new();
    for sketch in &sketches {
        set.push(if plain { plain_text(sketch) } else { ornate_text(random, sketch) });
    }
    set
}

/// A few services, and one fault that has a place.
fn set_with_a_fault(random: &mut Random) -> Vec<Given> {
    let size = random.between(1, 3);
    let mut set = good_set(random, size as usize);
    let number = *random.pick(&PLACED);
    let place = random.below(size) as usize;
    damage(random, &mut set, place, number);
    set
}

/// A set as it is handed over, damaged or not.
pub fn given_set(random: &mut Random) -> Vec<Given> {
    if random.one_in(3) {
        return set_with_a_fault(random);
    }
    let size = if random.one_in(60) { 0 } else { set_size(random) };
    let mut set = good_set(random, size);
    let damages = match random.below(10) {
        0..=2 => 0,
        3..=6 => 1,
        _ => 2,
    };
    let mut place = random.below(set.len().max(1) as u64) as usize;
    for _ in 0..damages {
        let number = *random.pick(&DAMAGES);
        if !set.is_empty() {
            damage(random, &mut set, place, number);
        }
        // Two faults of one text, or of two.
        if random.one_in(2) {
            place = random.below(set.len().max(1) as u64) as usize;
        }
    }
    if random.one_in(12) && !set.is_empty() {
        let place = random.below(set.len() as u64) as usize;
        set[place].text = filled_to(&set[place].text, random.between(4_095, 4_097) as usize);
    }
    set
}

pub fn set_case(random: &mut Random) -> Vec<u8> {
    let mut builder = Builder::new();
    let set = given_set(random);
    for given in &set {
        builder.service(random, given);
    }
    builder.push("load 65536");
    builder.push("show");
    if builder.loaded().is_some() {
        rooms(random, &mut builder);
    }
    if kept_whole(&set) && random.one_in(2) {
        for _ in 0..random.between(1, 4) {
            positions(random, &mut builder);
        }
    }
    if random.one_in(6) && set.len() < 33 {
        one_more(random, &mut builder, &set);
    }
    builder.scenario
}

/// Loads with room that is just enough, one too few, and any.
fn rooms(random: &mut Random, builder: &mut Builder) {
    let need = builder.loaded().map_or(0, |loaded| loaded.tokens.len() as u64);
    if random.one_in(2) {
        builder.push(&format!("load {need}"));
        builder.push("show");
    }
    if need > 0 && random.one_in(2) {
        let room = if random.one_in(2) { need - 1 } else { random.below(need) };
        builder.push(&format!("load {room}"));
    }
}

/// A load with positions of one's own choice: number 2 often.
fn positions(random: &mut Random, builder: &mut Builder) {
    let (bytes, mut chosen) = builder.lent();
    let end = bytes.len() as u64;
    let any = |random: &mut Random, count: usize| random.below(count as u64) as usize;
    match random.below(10) {
        0 => {
            builder.push("load 65536 -");
            return;
        }
        1 => {
            chosen.pop();
        }
        2 => chosen.push(end),
        3 if !chosen.is_empty() => {
            let place = any(random, chosen.len());
            chosen[place] = chosen[place].saturating_sub(random.between(1, 3));
        }
        4 if !chosen.is_empty() => {
            let place = any(random, chosen.len());
            chosen[place] += random.between(1, 3);
        }
        5 if chosen.len() > 1 => {
            let place = any(random, chosen.len() - 1);
            chosen.swap(place, place + 1);
        }
        6 if !chosen.is_empty() => {
            let place = any(random, chosen.len());
            chosen[place] = *random.pick(&[0, end, end + 1, u64::MAX, u64::MAX - 1, 1 << 32]);
        }
        7 => {
            let count = *random.pick(&[64usize, 65, 66, 67, 68, 70]);
            chosen = vec![end; count];
        }
        8 => {
            let count = random.between(1, 6);
            chosen = (0..count).map(|_| random.below(end + 1)).collect();
            chosen.sort();
        }
        _ => {}
    }
    if chosen.is_empty() {
        chosen.push(0);
    }
    chosen.truncate(70);
    let words: Vec<String> = chosen.iter().map(u64::to_string).collect();
    builder.push(&format!("load 65536 {}", words.join(" ")));
    builder.push("show");
}

/// A further service after a load, and a load again.
fn one_more(random: &mut Random, builder: &mut Builder, set: &[Given]) {
    let text = match set.first() {
        Some(first) if random.one_in(2) => {
            let mut text = first.text.clone();
            change_a_byte(random, &mut text);
            text
        }
        _ => b"type = internal\n".to_vec(),
    };
    builder.service(random, &Given { name: b"one-more".to_vec(), text });
    builder.push("load 65536");
    builder.push("show");
}
