//! The C example is compiled with the header and the archive, and run.

use std::path::{Path, PathBuf};
use std::process::{Command, Output};

fn run(command: &mut Command) -> Output {
    let name = command.get_program().to_owned();
    command
        .output()
        .unwrap_or_else(|error| panic!("{name:?} cannot be run ({error}): apt-get install gcc"))
}

fn compiled() -> PathBuf {
    let package = Path::new(env!("CARGO_MANIFEST_DIR"));
    let program = Path::new(env!("CARGO_TARGET_TMPDIR")).join("handshake");
    let built = run(Command::new("cc")
        .args(["-std=c99", "-pedantic", "-Wall", "-Wextra", "-Werror", "-I"])
        .arg(package.join("include"))
        .arg(package.join("examples/handshake.c"))
        .arg(env!("SDO_ARCHIVE_COPY"))
        .arg("-o")
        .arg(&program));
    let said = String::from_utf8_lossy(&built.stderr);
    assert!(built.status.success(), "{said}");
    program
}

#[test]
fn the_example_is_answered_as_on_the_card() {
    let program = compiled();
    let ran = run(&mut Command::new(&program));
    let said = String::from_utf8_lossy(&ran.stdout);
    assert!(ran.status.success(), "{said}");
    let lines: Vec<&str> = said.lines().collect();
    assert_eq!(lines[1], "server 01 01 00 00 00 00 10 00 00 00 00 00");
    assert_eq!(lines[3], "server 06 06 00 00 00 07 10 00 02 00 00 00 34 12");
}
