//! Texts from sketches, plain or with every freedom that paper 01 gives
//! ("Reading a text").

use super::sketch::{Setting, Sketch};
use crate::random::Random;
use second::text::is_white_space;

/// A service as it is handed over: a name and a text of any bytes.
#[derive(Clone, Debug)]
pub struct Given {
    pub name: Vec<u8>,
    pub text: Vec<u8>,
}

const WHITE: &[u8] = b" \t\x0b\x0c\r";

/// One line for each setting, the plainest way that gives the tokens.
pub fn plain_text(sketch: &Sketch) -> Given {
    let mut text = Vec::new();
    for setting in &sketch.settings {
        text.extend_from_slice(setting.property.as_bytes());
        text.push(b'=');
        let tokens: Vec<Vec<u8>> = setting.tokens.iter().map(|token| escaped(token)).collect();
        text.extend_from_slice(&tokens.join(&b' '));
        text.push(b'\n');
    }
    Given { name: sketch.name.clone(), text }
}

fn escaped(token: &[u8]) -> Vec<u8> {
    if token.is_empty() {
        return b"\"\"".to_vec();
    }
    let mut written = Vec::new();
    for byte in token {
        if is_white_space(*byte) || matches!(byte, b'"' | b'\\' | b'#') {
            written.push(b'\\');
        }
        written.push(*byte);
    }
    written
}

/// The same settings in any order, with quotes, escapes, comments, white
/// space, carriage returns at every line's end, repeated dependencies and
/// settings that a later line replaces.
pub fn ornate_text(random: &mut Random, sketch: &Sketch) -> Given {
    let mut settings = sketch.settings.clone();
    random.shuffle(&mut settings);
    let mut lines: Vec<Vec<u8>> = Vec::new();
    for setting in &settings {
        if random.one_in(10) {
            lines.push(silent_line(random));
        }
        let may_repeat = setting.property != "type" || setting.tokens[0] != b"internal";
        if may_repeat && random.one_in(12) {
            let mut earlier = setting.clone();
            if setting.property == "command" || setting.property == "stop-command" {
                earlier.tokens = vec![b"earlier".to_vec()];
            }
            let place = random.below(lines.len() as u64 + 1) as usize;
            let line = ornate_line(random, &earlier);
            lines.insert(place, line);
        }
        lines.push(ornate_line(random, setting));
    }
    if random.one_in(4) {
        lines.iter_mut().for_each(|line| line.push(b'\r'));
    }
    let mut text = lines.join(&b'\n');
    if !random.one_in(4) {
        text.push(b'\n');
    }
    Given { name: sketch.name.clone(), text }
}

pub fn white(random: &mut Random, least: u64) -> Vec<u8> {
    let most = if random.one_in(4) { least + 3 } else { least };
    (0..random.between(least, most)).map(|_| *random.pick(WHITE)).collect()
}

/// A line of white space or a comment.
pub fn silent_line(random: &mut Random) -> Vec<u8> {
    let mut line = white(random, 0);
    if random.one_in(2) {
        line.extend_from_slice(b"# type=wrong \"\\ ");
        line.extend(white(random, 0));
    }
    line
}

pub fn ornate_line(random: &mut Random, setting: &Setting) -> Vec<u8> {
    let mut line = white(random, 0);
    line.extend_from_slice(setting.property.as_bytes());
    line.extend(white(random, 0));
    line.push(*random.pick(b"=:"));
    line.extend(white(random, 0));
    for (place, token) in setting.tokens.iter().enumerate() {
        if place > 0 {
            line.extend(white(random, 1));
        }
        line.extend(ornate_token(random, token));
    }
    if random.one_in(5) {
        line.extend(white(random, 1));
        if random.one_in(2) {
            line.extend_from_slice(b"# a comment with \" and # and \\");
        }
    }
    line
}

fn ornate_token(random: &mut Random, token: &[u8]) -> Vec<u8> {
    if token.is_empty() {
        return random.pick(&[&b"\"\""[..], b"\"\"\"\""]).to_vec();
    }
    let quotes = random.one_in(3);
    let escapes = random.one_in(6);
    let mut written = Vec::new();
    let mut quoted = false;
    for byte in token {
        if quotes && random.one_in(3) {
            written.push(b'"');
            quoted = !quoted;
        }
        let special = matches!(byte, b'"' | b'\\') || is_white_space(*byte) || *byte == b'#';
        let needs = matches!(byte, b'"' | b'\\') || (!quoted && special);
        if needs || (escapes && random.one_in(3)) {
            written.push(b'\\');
        }
        written.push(*byte);
    }
    if quoted {
        written.push(b'"');
    }
    written
}

/// A text brought to exactly this many bytes by comments, where it is shorter.
pub fn filled_to(text: &[u8], bytes: usize) -> Vec<u8> {
    let mut filled = text.to_vec();
    if filled.last().is_some_and(|byte| *byte != b'\n') && filled.len() < bytes {
        filled.push(b'\n');
    }
    if filled.len() < bytes {
        filled.push(b'#');
    }
    while filled.len() < bytes {
        filled.push(b'f');
    }
    filled
}
