//! The folder named by HEADWORDS_LIB_DIR is where the linker finds libheadwords.a.

use std::path::Path;
use std::process::exit;

fn main() {
    println!("cargo:rerun-if-env-changed=HEADWORDS_LIB_DIR");
    let Ok(folder) = std::env::var("HEADWORDS_LIB_DIR") else {
        eprintln!("HEADWORDS_LIB_DIR is not set: give the whole path of the folder that holds libheadwords.a");
        exit(1);
    };
    let Ok(folder) = Path::new(&folder).canonicalize() else {
        eprintln!(
            "HEADWORDS_LIB_DIR is not a folder that can be read, give its whole path: {folder}"
        );
        exit(1);
    };
    let library = folder.join("libheadwords.a");
    if !library.is_file() {
        eprintln!(
            "HEADWORDS_LIB_DIR holds no libheadwords.a: {}",
            folder.display()
        );
        exit(1);
    }
    println!("cargo:rerun-if-changed={}", library.display());
    println!("cargo:rustc-link-search=native={}", folder.display());
    println!("cargo:rustc-link-lib=static=headwords");
    // A library built without the standard library brings its own panic entry beside this program's.
    println!("cargo:rustc-link-arg-bins=-Wl,-z,muldefs");
}
