//! Nothing is linked but `core`, its `compiler_builtins` and klem: no start files, no C library, nothing that a loader would have to find.
fn main() {
    println!("cargo:rerun-if-changed=build.rs");
    for arg in ["-nostartfiles", "-nostdlib", "-static", "-no-pie"] {
        println!("cargo:rustc-link-arg-bins={arg}");
    }
}
