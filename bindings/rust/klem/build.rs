//! Finds `libklem_c.a` and has it linked: in `KLEM_LIB_DIR`, or else where `rt lib --cpu=x86-64` in `crates/klem_c` writes it. Asks the compiler's version.
use std::{
    env,
    path::PathBuf,
    process::{exit, Command},
};

fn main() {
    println!("cargo:rerun-if-env-changed=KLEM_LIB_DIR");
    println!("cargo:rerun-if-changed=build.rs");

    // The archive is x86-64 code, with sizes of 64 bits. On another target the linker would say so in its own, less plain words, or, where
    // sizes have 32 bits, not at all.
    let target = env::var("CARGO_CFG_TARGET_ARCH").unwrap_or_default();
    let width = env::var("CARGO_CFG_TARGET_POINTER_WIDTH").unwrap_or_default();
    if target != "x86_64" || width != "64" {
        stop(&format!(
            "libklem_c.a is x86-64 code of 64 bits, and this build is for {target} of {width}: build for an x86-64 target (bindings/README.md, \"On Arm\")"
        ));
    }

    // From 1.80 on a compiler wants to be told which cfgs there are; from 1.81 on it has core::error::Error.
    let minor = minor_version().unwrap_or(0);
    if minor >= 80 {
        println!("cargo:rustc-check-cfg=cfg(klem_core_error)");
    }
    if minor >= 81 {
        println!("cargo:rustc-cfg=klem_core_error");
    }

    let dir = match env::var_os("KLEM_LIB_DIR") {
        Some(dir) => PathBuf::from(dir),
        None => PathBuf::from(env::var_os("CARGO_MANIFEST_DIR").unwrap_or_default()).join("../../../crates/klem_c/out"),
    };
    let archive = dir.join("libklem_c.a");
    println!("cargo:rerun-if-changed={}", archive.display());
    if !archive.is_file() {
        stop(&format!(
            "there is no {}: write it with `rt lib --cpu=x86-64` in the repository's `crates/klem_c`, or name its folder in KLEM_LIB_DIR",
            archive.display()
        ));
    }
    println!("cargo:rustc-link-search=native={}", dir.display());
    println!("cargo:rustc-link-lib=static=klem_c");
}

// 63 of `rustc 1.63.0`; none where the compiler says something else, which is then taken for an old one.
fn minor_version() -> Option<u32> {
    let said = Command::new(env::var_os("RUSTC")?).arg("--version").output().ok()?;
    String::from_utf8(said.stdout).ok()?.strip_prefix("rustc 1.")?.split('.').next()?.parse().ok()
}

fn stop(why: &str) -> ! {
    eprintln!("klem: {why}");
    exit(1);
}
