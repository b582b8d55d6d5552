//! Links the static library libpenne_c.a, which `rt lib` makes in crates/penne_c, and for the feature
//! `words` libpenne_words_c.a, which `rt lib` makes in crates/penne_words_c.

use std::env;
use std::path::{Path, PathBuf};
use std::process::exit;

/// The variable that names another folder with the libraries.
const FOLDER: &str = "PENNE_C_LIB_DIR";

fn main() {
    println!("cargo::rerun-if-env-changed={FOLDER}");
    let target = |part: &str| env::var(format!("CARGO_CFG_TARGET_{part}")).unwrap_or_default();
    if target("ARCH") != "x86_64" || target("OS") != "linux" {
        stop("The library penne_c is made for x86-64 Linux only.");
    }
    // The tests ask for the libraries by these variables.
    link("penne_c", "PENNE_C_LIB");
    if env::var_os("CARGO_FEATURE_WORDS").is_some() {
        link("penne_words_c", "PENNE_WORDS_C_LIB");
    }
}

/// Links the library of a crate, and gives its path to the package in a variable.
fn link(name: &str, variable: &str) {
    let folder = folder(name);
    let library = folder.join(format!("lib{name}.a"));
    println!("cargo::rerun-if-changed={}", library.display());
    if !library.is_file() {
        stop(&format!(
            "There is no {}. Run `rt lib` in crates/{name}, or let {FOLDER} name the folder that \
             has lib{name}.a.",
            library.display()
        ));
    }
    println!("cargo::rustc-link-search=native={}", folder.display());
    println!("cargo::rustc-link-lib=static={name}");
    println!("cargo::rustc-env={variable}={}", library.display());
}

/// The folder that has the library of a crate.
fn folder(name: &str) -> PathBuf {
    match env::var_os(FOLDER) {
        Some(folder) => PathBuf::from(folder),
        None => Path::new(env!("CARGO_MANIFEST_DIR")).with_file_name(format!("crates/{name}/out")),
    }
}

fn stop(why: &str) -> ! {
    eprintln!("{why}");
    exit(1);
}
