//! A library of another version is told, and no state and no struct is lent to it. The library here is
//! a small one in C that says of itself what the test wants; the example `version` and a host in C are
//! linked with it.

use std::path::{Path, PathBuf};
use std::process::{Command, Output};

/// What the example can be asked to make, and the calls that need no state.
const STATES: [&str; 4] = ["registry", "endpoint", "stored registry", "stored endpoint"];
const CALLS: [&str; 6] = [
    "write names",
    "write port_please2",
    "write alive2",
    "read names",
    "read port2",
    "read alive2",
];

/// Runs to its end, which must be a success.
fn run(command: &mut Command) {
    let output = command
        .output()
        .unwrap_or_else(|e| panic!("{command:?}: {e}"));
    let said = String::from_utf8_lossy(&output.stderr);
    assert!(output.status.success(), "{command:?}: {said}");
}

/// Makes the library of another version, in a folder of the test's own.
fn library(folder: &str) -> PathBuf {
    let folder = Path::new(env!("CARGO_TARGET_TMPDIR")).join(folder);
    std::fs::create_dir_all(&folder).unwrap();
    let object = folder.join("other.o");
    let library = folder.join("libbirkenschuh.a");
    run(Command::new("cc")
        .args(["-c", "tests/version/other.c", "-o"])
        .arg(&object));
    let _ = std::fs::remove_file(&library);
    run(Command::new("ar").arg("crs").arg(&library).arg(&object));
    folder
}

/// The example, linked with the library of another version.
fn example() -> PathBuf {
    let folder = library("version");
    run(Command::new(env!("CARGO"))
        .args(["build", "--quiet", "--offline", "--example", "version"])
        .arg("--target-dir")
        .arg(folder.join("target"))
        .env("BIRKENSCHUH_LIB_DIR", &folder));
    folder.join("target/debug/examples/version")
}

fn made(example: &Path, other: &str, asked: &str) -> Output {
    let mut command = Command::new(example);
    command.arg(asked).env("OTHER", other);
    command.output().expect("the example was built")
}

#[test]
fn another_version_is_told_before_a_state_or_such_a_call_is_made() {
    let example = example();
    for (other, says) in [
        (
            "abi",
            "boundary version 1, with states of 25670 and 9004 bytes",
        ),
        (
            "registry",
            "boundary version 2, with states of 25864 and 9004 bytes",
        ),
        (
            "endpoint",
            "boundary version 2, with states of 25670 and 9232 bytes",
        ),
    ] {
        for asked in STATES.into_iter().chain(CALLS) {
            let output = made(&example, other, asked);
            let told = String::from_utf8_lossy(&output.stdout);
            let cried = String::from_utf8_lossy(&output.stderr);
            assert!(told.contains(says), "{told}");
            assert!(cried.contains(says), "{cried}");
            assert_eq!(output.status.code(), Some(101), "a panic and no crash");
        }
    }
    let output = made(&example, "", "");
    assert_eq!(output.stdout, b"the library fits\n");
}

#[test]
fn a_host_in_c_is_told_too() {
    let folder = library("matches");
    let host = folder.join("matches");
    run(Command::new("cc")
        .args(["-I../include", "tests/version/matches.c"])
        .arg(folder.join("libbirkenschuh.a"))
        .arg("-o")
        .arg(&host));
    for (other, code) in [("", 0), ("abi", 1), ("registry", 1), ("endpoint", 1)] {
        let status = Command::new(&host).env("OTHER", other).status().unwrap();
        assert_eq!(status.code(), Some(code), "{other}");
    }
}
