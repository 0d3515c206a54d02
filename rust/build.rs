//! Links `libbirkenschuh.a`, which `make lib` builds in `target/staticlib` of the repository. The
//! variable `BIRKENSCHUH_LIB_DIR` names another folder.

use std::env;
use std::path::{Path, PathBuf};

fn main() {
    println!("cargo::rerun-if-env-changed=BIRKENSCHUH_LIB_DIR");
    let folder = match env::var_os("BIRKENSCHUH_LIB_DIR") {
        Some(folder) => PathBuf::from(folder),
        None => Path::new(env!("CARGO_MANIFEST_DIR")).join("../target/staticlib"),
    };
    let library = folder.join("libbirkenschuh.a");
    println!("cargo::rerun-if-changed={}", library.display());
    if library.is_file() {
        println!("cargo::rustc-link-search=native={}", folder.display());
        println!("cargo::rustc-link-lib=static=birkenschuh");
    } else {
        println!(
            "cargo::error={} is missing: run `make lib` at the top of the repository, \
             or set BIRKENSCHUH_LIB_DIR to the folder that has it",
            library.display()
        );
    }
}
