//! Links the static library: target/staticlib of the repository, or the folder whose absolute path PUNELAVOH_STATICLIB holds.

use std::env;
use std::path::PathBuf;

fn main() {
    println!("cargo:rerun-if-changed=build.rs");
    println!("cargo:rerun-if-env-changed=PUNELAVOH_STATICLIB");
    let here = PathBuf::from(env::var_os("CARGO_MANIFEST_DIR").expect("set by cargo"));
    let folder = env::var_os("PUNELAVOH_STATICLIB").map_or(here.join("../../target/staticlib"), PathBuf::from);
    let library = folder.join("libpunelavoh.a");
    if !library.is_file() {
        let mend = "make it with `tools/staticlib`, or let PUNELAVOH_STATICLIB hold the absolute path of its folder";
        println!("cargo:warning=there is no {}: {mend}", library.display());
    }
    println!("cargo:rerun-if-changed={}", library.display());
    println!("cargo:rustc-link-search=native={}", folder.display());
    println!("cargo:rustc-link-lib=static=punelavoh");
}
