//! Where the binaries of the second program stand. They are another package's,
//! so cargo does not build them for these tests: the first that asks does.

use std::path::{Path, PathBuf};
use std::process::Command;
use std::sync::Once;

static BUILT: Once = Once::new();

/// A binary of the second program, built as it is now.
pub fn second_program(name: &str) -> PathBuf {
    let second = Path::new(env!("CARGO_MANIFEST_DIR")).join("../second");
    let second = second.canonicalize().expect("the second program is beside the tools");
    let target = second.join("target");
    BUILT.call_once(|| {
        let status = Command::new(env!("CARGO"))
            .args(["build", "--release", "--offline", "--quiet", "--manifest-path"])
            .arg(second.join("Cargo.toml"))
            .arg("--target-dir")
            .arg(&target)
            .status();
        assert!(status.expect("cargo starts").success(), "the second program is not built");
    });
    target.join("release").join(name)
}
