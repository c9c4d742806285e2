//! Links the firmware's archive, and says what to run where it is not there.

use std::path::Path;

fn main() {
    let folder = Path::new(env!("CARGO_MANIFEST_DIR")).join("../target/native");
    let archive = folder.join("libfirmware.a");
    println!("cargo::rerun-if-changed=build.rs");
    println!("cargo::rerun-if-changed={}", archive.display());
    if !archive.is_file() {
        println!(
            "cargo::error=target/native/libfirmware.a is not there: run tools/archive, \
             which proves and builds it (some minutes the first time)"
        );
        return;
    }
    println!("cargo::rustc-link-search=native={}", folder.display());
    println!("cargo::rustc-link-lib=static=firmware");
}
