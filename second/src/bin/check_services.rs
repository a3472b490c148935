//! Reads service names from standard input, loads the files of these names in
//! the current folder, and writes what was loaded or the refusal.

use second::program::{check_services, Files, INPUT_BYTES};
use std::ffi::OsStr;
use std::fs::{self, File};
use std::io::{self, Read, Write};
use std::os::unix::ffi::OsStrExt;

struct CurrentFolder;

impl Files for CurrentFolder {
    fn read(&mut self, name: &[u8], most: usize) -> Option<Vec<u8>> {
        let name = OsStr::from_bytes(name);
        // Only a regular file is opened, or a link to one: to open a pipe
        // waits for its other end. What takes the file's place between the
        // look and the opening is not seen.
        if !fs::metadata(name).ok()?.is_file() {
            return None;
        }
        let file = File::open(name).ok()?;
        let mut text = Vec::new();
        file.take(most as u64).read_to_end(&mut text).ok()?;
        Some(text)
    }
}

fn main() -> io::Result<()> {
    let mut input = Vec::new();
    // Standard input that cannot be read counts as ended.
    let _ = io::stdin().lock().take(INPUT_BYTES as u64).read_to_end(&mut input);
    io::stdout().lock().write_all(&check_services(&input, &mut CurrentFolder))
}
