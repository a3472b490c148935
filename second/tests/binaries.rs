//! The binaries themselves: what they read of standard input, and what
//! `check_services` makes of a name that is no regular file.

use second::scenario;
use std::fs::{self, File};
use std::os::unix::fs::symlink;
use std::os::unix::net::UnixListener;
use std::path::{Path, PathBuf};
use std::process::{Child, Command, Stdio};
use std::thread::sleep;
use std::time::Duration;

/// A folder of a test's own. Its path is short: that of a socket must be.
fn folder(name: &str) -> PathBuf {
    let folder = std::env::temp_dir().join(format!("second-{name}-{}", std::process::id()));
    fs::create_dir(&folder).expect("a folder");
    folder
}

/// What a program writes in a folder for this input; it has ten seconds.
fn written(program: &str, folder: &Path, input: &[u8]) -> String {
    fs::write(folder.join("standard input"), input).expect("the input is written");
    let mut child = Command::new(program)
        .current_dir(folder)
        .stdin(File::open(folder.join("standard input")).expect("the input is there"))
        .stdout(Stdio::piped())
        .spawn()
        .expect("the program starts");
    assert!(ends(&mut child), "it does not end");
    let output = child.wait_with_output().expect("its output is read");
    String::from_utf8(output.stdout).expect("its output is text")
}

fn ends(child: &mut Child) -> bool {
    for _ in 0..1000 {
        if child.try_wait().expect("the program is waited for").is_some() {
            return true;
        }
        sleep(Duration::from_millis(10));
    }
    child.kill().expect("the program is killed");
    false
}

const SIMULATE: &str = env!("CARGO_BIN_EXE_simulate");
const CHECK_SERVICES: &str = env!("CARGO_BIN_EXE_check_services");

#[test]
fn simulate_answers_a_scenario() {
    let folder = folder("simulate");
    let short = b"service a\n|type = internal\nload 9\nstart 0\nrun";
    let answer = "0 a internal\nok 1\nok\nrun 2; moved 0; moved 0\n";
    assert_eq!(written(SIMULATE, &folder, short), answer);
    // A line that stands past the bytes that are read is not answered.
    let filling = vec![b'\n'; scenario::INPUT_BYTES - short.len()];
    let long = [short.as_slice(), &filling, b"stop 0\n"].concat();
    assert_eq!(written(SIMULATE, &folder, &long), answer);
    fs::remove_dir_all(&folder).expect("the folder goes");
}

#[test]
fn what_is_no_regular_file_is_unreadable() {
    let folder = folder("no-files");
    let checked = |names: &str| written(CHECK_SERVICES, &folder, names.as_bytes());
    fs::write(folder.join("ok"), "type = internal\n").expect("a file");
    let made = Command::new("mkfifo").arg(folder.join("pipe")).status().expect("mkfifo runs");
    assert!(made.success());
    fs::create_dir(folder.join("inner")).expect("a folder");
    let _socket = UnixListener::bind(folder.join("socket")).expect("a socket");
    for (link, to) in [("link", "ok"), ("pipe-link", "pipe"), ("device", "/dev/zero")] {
        symlink(to, folder.join(link)).expect("a link");
    }
    assert_eq!(checked("ok\nlink\n"), "0 ok internal\n1 link internal\nok 2\n");
    for name in ["pipe", "inner", "socket", "pipe-link", "device"] {
        assert_eq!(checked(&format!("ok\n{name}\n")), "unreadable 1\n", "{name}");
    }
    fs::remove_dir_all(&folder).expect("the folder goes");
}
