//! The header, by programs in C that are compiled against it and run.

use std::fs;
use std::path::Path;
use std::process::Command;

const STRICT: [&str; 5] = ["-Wall", "-Wextra", "-Werror", "-pedantic", "-std=c99"];

/// The libraries as build.rs names them.
const LIBRARIES: &[&str] = &[
    env!("PENNE_C_LIB"),
    #[cfg(feature = "words")]
    env!("PENNE_WORDS_C_LIB"),
];

/// Compiles a program with the libraries, runs it, and gives what it wrote. The program's file is
/// removed.
fn run(source: &str) -> String {
    let package = Path::new(env!("CARGO_MANIFEST_DIR"));
    let name = Path::new(source).file_stem().expect("a name");
    let program = Path::new(env!("CARGO_TARGET_TMPDIR")).join(name);
    let compiled = Command::new("cc")
        .args(STRICT)
        .arg("-I")
        .arg(package.with_file_name("include"))
        .arg(package.join(source))
        .args(LIBRARIES)
        .arg("-o")
        .arg(&program)
        .output()
        .expect("a C compiler is there");
    let errors = String::from_utf8_lossy(&compiled.stderr);
    assert!(compiled.status.success() && errors.is_empty(), "{errors}");
    let run = Command::new(&program).output().expect("the program runs");
    fs::remove_file(&program).expect("the program is there");
    let told = String::from_utf8_lossy(&run.stdout).into_owned();
    assert!(run.status.success(), "{told}");
    told
}

#[test]
fn the_entries_and_the_parts() {
    assert_eq!(run("tests/c/entries.c"), "");
}

#[test]
fn a_tree_is_printed() {
    let tree = "\
13: kind 21, load 1 (*)
  12: kind 22, load 2
  11: kind 57, load 0
    0: kind 27, load 0
  10: kind 18, load 0
    9: kind 21, load 4 (+)
      8: kind 22, load 0
      7: kind 57, load 5
        5: kind 33, load 3
          4: kind 34, load 0
          3: kind 8, load 3
          2: kind 58, load 1
            1: kind 0, load 0
      6: kind 27, load 5
";
    assert_eq!(run("examples/c/tree.c"), tree);
}

#[test]
#[cfg(feature = "words")]
fn the_entries_with_words() {
    assert_eq!(run("tests/c/words.c"), "");
}
