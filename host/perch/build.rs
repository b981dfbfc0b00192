//! Links the library's archive: that of `./build perchpulley` in this tree, or of the folder that PERCH_LIBRARY names. With the
//! feature `standin` the stand-in takes its place.

use std::path::PathBuf;

fn main() {
    let built = concat!(env!("CARGO_MANIFEST_DIR"), "/../../target/staticlib");
    println!("cargo:rerun-if-env-changed=PERCH_LIBRARY");
    if std::env::var_os("CARGO_FEATURE_STANDIN").is_some() {
        return;
    }
    let folder = PathBuf::from(std::env::var_os("PERCH_LIBRARY").unwrap_or_else(|| built.into()));
    let archive = folder.join("libperchpulley.a");
    println!("cargo:rerun-if-changed={}", archive.display());
    if !archive.exists() {
        eprintln!("{} isn't there.", archive.display());
        eprintln!(
            "`./build perchpulley`, in the folder above host/, builds it; PERCH_LIBRARY names another folder that has it."
        );
        eprintln!("To try the tools without the library: --features standin.");
        std::process::exit(1);
    }
    println!("cargo:rustc-link-search=native={}", folder.display());
    println!("cargo:rustc-link-lib=static=perchpulley");
}
