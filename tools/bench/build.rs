//! Points the linker to the archives of what is measured beside the library, libbench_block.a and libbench_plain.a: in
//! target/staticlib of the repository, or in the folder that FRAME_CODER_DIR names. The hand-tuned coder alone does not
//! need them.

use std::path::{Path, PathBuf};

fn main() {
    println!("cargo:rerun-if-env-changed=FRAME_CODER_DIR");
    if std::env::var_os("CARGO_FEATURE_LIBRARY").is_none() {
        return;
    }
    let folder = match std::env::var_os("FRAME_CODER_DIR") {
        Some(folder) => PathBuf::from(folder),
        None => Path::new(env!("CARGO_MANIFEST_DIR")).join("../../target/staticlib"),
    };
    println!("cargo:rustc-link-search=native={}", folder.display());
    for name in ["bench_block", "bench_plain"] {
        let archive = folder.join(format!("lib{name}.a"));
        println!("cargo:rerun-if-changed={}", archive.display());
        println!("cargo:rustc-link-lib=static={name}");
        if !archive.exists() {
            println!("cargo:warning=no {}: make the static library first", archive.display());
        }
    }
}
