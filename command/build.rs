//! The folder named by HEADWORDS_LIB_DIR, else the repository's own, is where the linker finds libheadwords.a.

use std::path::{Path, PathBuf};
use std::process::exit;

fn main() {
    println!("cargo:rerun-if-env-changed=HEADWORDS_LIB_DIR");
    let folder = match std::env::var_os("HEADWORDS_LIB_DIR") {
        Some(folder) => PathBuf::from(folder),
        None => Path::new(env!("CARGO_MANIFEST_DIR")).join("../target/staticlib"),
    };
    let library = folder.join("libheadwords.a");
    let (Ok(folder), true) = (folder.canonicalize(), library.is_file()) else {
        eprintln!("there is no library at {}: make it by tools/library, or name its folder, by its whole path, in HEADWORDS_LIB_DIR", library.display());
        exit(1);
    };
    println!("cargo:rerun-if-changed={}", folder.join("libheadwords.a").display());
    println!("cargo:rustc-link-search=native={}", folder.display());
    println!("cargo:rustc-link-lib=static=headwords");
}
