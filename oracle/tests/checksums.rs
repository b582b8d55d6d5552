//! The six files of penne are kept byte for byte.

use std::path::Path;
use std::process::Command;

const FILES: [&str; 6] = [
    "src/delta/parser.rs",
    "src/delta/parser/parse_tree.rs",
    "src/delta/parser/parse_node.rs",
    "src/delta/parser/tokens.rs",
    "src/delta/lexer.rs",
    "src/delta/lexer/tokens.rs",
];

fn here() -> &'static Path {
    Path::new(env!("CARGO_MANIFEST_DIR"))
}

/// CHECKSUMS holds exactly the six files, and `sha256sum` finds them unchanged.
#[test]
fn the_six_files_have_their_checksums() {
    let list = std::fs::read_to_string(here().join("CHECKSUMS")).unwrap();
    let listed: Vec<&str> = list.lines().map(|line| &line[66..]).collect();
    assert_eq!(listed, FILES);
    let output = Command::new("sha256sum")
        .args(["--check", "--strict", "CHECKSUMS"])
        .current_dir(here())
        .output()
        .expect("sha256sum");
    assert!(
        output.status.success(),
        "{}",
        String::from_utf8_lossy(&output.stdout)
    );
}

/// Where the published text lies beside the repository, the files equal it.
#[test]
fn the_six_files_equal_the_published_text() {
    let mut compared = 0;
    for above in ["..", "../.."] {
        let published = here().join(above).join("shared/docs/src");
        if !published.is_dir() {
            continue;
        }
        for file in FILES {
            let ours = std::fs::read(here().join(file)).unwrap();
            let theirs = std::fs::read(published.join(file)).unwrap();
            assert!(ours == theirs, "{file} differs");
            compared += 1;
        }
    }
    if compared == 0 {
        eprintln!("the published text is not here; only the checksums were compared");
    }
}
