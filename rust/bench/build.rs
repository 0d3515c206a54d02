//! Compiles the peer in plain C at -O3 and links OpenSSL's libcrypto (Debian's libssl-dev).

use std::env;
use std::path::Path;
use std::process::Command;

fn run(command: &mut Command) {
    let status = command.status();
    if !status.is_ok_and(|s| s.success()) {
        println!("cargo::error={command:?} failed: the benchmarks need a C compiler and ar");
    }
}

fn main() {
    let source = "plain/md5.c";
    println!("cargo::rerun-if-changed={source}");
    let folder = env::var("OUT_DIR").expect("cargo sets OUT_DIR");
    let object = Path::new(&folder).join("md5.o");
    let archive = Path::new(&folder).join("libplain.a");
    run(Command::new("cc")
        .args(["-O3", "-c", source, "-o"])
        .arg(&object));
    run(Command::new("ar").arg("crs").arg(&archive).arg(&object));
    println!("cargo::rustc-link-search=native={folder}");
    println!("cargo::rustc-link-lib=static=plain");
    println!("cargo::rustc-link-lib=crypto");
}
