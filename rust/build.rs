//! Links the static library that `tools/staticlib ngiyarumba` writes.

use std::env;
use std::path::{Path, PathBuf};
use std::process::exit;

/// A folder that has the library, where it is not the project's own.
const FOLDER: &str = "NGIYARUMBA_LIB_DIR";

fn main() {
    println!("cargo:rerun-if-env-changed={FOLDER}");
    if env::var("CARGO_CFG_TARGET_ARCH").as_deref() != Ok("x86_64") {
        println!("cargo:warning=the library is for x86-64: elsewhere this crate is not linked");
        return;
    }
    let folder = folder();
    let archive = folder.join("libngiyarumba.a");
    println!("cargo:rerun-if-changed={}", archive.display());
    if !archive.is_file() {
        eprintln!("There is no {}.", archive.display());
        eprintln!("Run `tools/staticlib ngiyarumba` first, or have {FOLDER} name its folder.");
        exit(1);
    }
    println!("cargo:rustc-link-search=native={}", folder.display());
    println!("cargo:rustc-link-lib=static=ngiyarumba");
}

fn folder() -> PathBuf {
    let own = || Path::new(env!("CARGO_MANIFEST_DIR")).join("../target/staticlib");
    env::var_os(FOLDER).map_or_else(own, PathBuf::from)
}
