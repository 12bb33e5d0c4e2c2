//! The header, as a C and a C++ compiler read it, with the archive behind it.
use std::path::{Path, PathBuf};
use std::process::Command;

/// Builds a program and gives what it writes.
fn written(compiler: &str, standard: &str, source: &Path, name: &str) -> String {
    let program = Path::new(env!("CARGO_TARGET_TMPDIR")).join(name);
    let built = Command::new(compiler)
        .args([standard, "-Wall", "-Wextra", "-Wpedantic", "-Werror", "-I..", "-o"])
        .args([&program, source])
        .args(["-L", env!("FESOLOPI_FOLDER"), "-lfesolopi"])
        .output()
        .unwrap_or_else(|error| panic!("{compiler}: {error}"));
    assert!(built.status.success(), "{}", String::from_utf8_lossy(&built.stderr));
    let ran = Command::new(&program).output().unwrap();
    assert!(ran.status.success());
    String::from_utf8(ran.stdout).unwrap()
}

#[test]
fn the_example_in_c() {
    let expected =
        "start: 0\nrun 1: 0, clock 0, events 1\nrun 2: 9, clock 1, events 0\nrun 3: 9, clock 0, events 0\n";
    assert_eq!(written("cc", "-std=c99", Path::new("../c/example.c"), "example"), expected);
}

#[test]
fn a_root_in_cpp() {
    let source: PathBuf = Path::new(env!("CARGO_TARGET_TMPDIR")).join("root.cpp");
    let text = "#include \"fesolopi.h\"\n#include <cstdio>\n\
        int main() { double r; bool done = fesolopi_square_root(2.25, &r) == FESOLOPI_DONE; std::printf(\"%d %g\", done, r); }\n";
    std::fs::write(&source, text).unwrap();
    assert_eq!(written("c++", "-std=c++11", &source, "root"), "1 1.5");
}
