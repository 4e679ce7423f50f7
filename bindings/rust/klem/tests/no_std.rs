//! The program without std, `examples/no_std`: built and run as its own package, it must end with 0.
use std::{env, process::Command};

#[test]
fn the_program_without_std_ends_with_0() {
    // cargo says by which cargo it was called, and what it was told of targets, linkers and runners it hands on.
    let cargo = env::var_os("CARGO").unwrap_or_else(|| "cargo".into());
    for profile in ["dev", "release"] {
        let ended = Command::new(&cargo)
            .args(["run", "--offline", "--quiet", "--profile", profile])
            .current_dir(concat!(env!("CARGO_MANIFEST_DIR"), "/examples/no_std"))
            .env("CARGO_TARGET_DIR", env!("CARGO_TARGET_TMPDIR"))
            .status()
            .unwrap_or_else(|e| panic!("{}: {e}", cargo.to_string_lossy()));
        assert!(ended.success(), "{profile}: {ended}");
    }
}
