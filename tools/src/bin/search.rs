//! Searches at random for a list of calls, or a state, that breaks demand 3.

use std::io::{self, Write};
use std::process::exit;
use std::time::Duration;
use tools::search::search;

fn fail() -> ! {
    eprintln!("usage: search [--seed S] [--seconds T]");
    exit(2)
}

fn main() {
    let (mut seed, mut seconds) = (1, 10);
    let mut words = std::env::args().skip(1);
    while let Some(option) = words.next() {
        let value = words.next().unwrap_or_else(|| fail());
        let number = value.parse::<u64>().unwrap_or_else(|_| fail());
        match option.as_str() {
            "--seed" => seed = number,
            "--seconds" => seconds = number,
            _ => fail(),
        }
    }
    let tried = search(seed, Duration::from_secs(seconds));
    if let Some(scenario) = &tried.broken {
        let _ = io::stdout().write_all(scenario);
    }
    println!("{}", tried.last_line());
    exit(if tried.broken.is_some() { 1 } else { 0 });
}
