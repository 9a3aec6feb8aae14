//! Links `libc_api.a`, the archive that `tools/build c_api` makes, from the folder LG_LIB_DIR or else from the repository's
//! target/staticlib. Where it isn't there, a warning says how to make it.

use std::env;
use std::path::PathBuf;

fn main() {
    let folder = match env::var_os("LG_LIB_DIR") {
        Some(folder) => PathBuf::from(folder),
        None => PathBuf::from(env!("CARGO_MANIFEST_DIR")).join("../../target/staticlib"),
    };
    let archive = folder.join("libc_api.a");
    if !archive.is_file() {
        println!(
            "cargo:warning=there is no {}: `tools/build c_api` in the repository makes target/staticlib/libc_api.a there; the \
             environment variable LG_LIB_DIR names another folder that has it",
            archive.display()
        );
    }
    println!("cargo:rerun-if-env-changed=LG_LIB_DIR");
    println!("cargo:rerun-if-changed={}", archive.display());
    println!("cargo:rustc-link-search=native={}", folder.display());
    println!("cargo:rustc-link-lib=static=c_api");
}
