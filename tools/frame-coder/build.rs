//! Points the linker to the library's archive, libframe_coder.a: in target/staticlib of the
//! repository, or in the folder that FRAME_CODER_DIR names.

use std::path::{Path, PathBuf};

fn main() {
    let folder = match std::env::var_os("FRAME_CODER_DIR") {
        Some(folder) => PathBuf::from(folder),
        None => Path::new(env!("CARGO_MANIFEST_DIR")).join("../../target/staticlib"),
    };
    let archive = folder.join("libframe_coder.a");
    println!("cargo:rerun-if-env-changed=FRAME_CODER_DIR");
    println!("cargo:rerun-if-changed={}", archive.display());
    println!("cargo:rustc-link-search=native={}", folder.display());
    println!("cargo:rustc-link-lib=static=frame_coder");
    if !archive.exists() {
        println!("cargo:warning=no {}: make it first, by `tools/archives frame_coder`", archive.display());
    }
}
