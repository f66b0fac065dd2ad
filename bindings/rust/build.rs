//! Links the static library.

use std::path::{Path, PathBuf};
use std::process::Command;
use std::{env, fs};

/// The library's name for pkg-config.
const PACKAGE: &str = "console-lines";

fn main() {
    let archive = archive();
    println!("cargo:rerun-if-changed={}", archive.display());
    let folder = archive.parent().expect("the archive's folder");
    let stem = archive.file_stem().expect("the archive's name");
    let stem = stem.to_string_lossy();
    let name = stem.strip_prefix("lib").expect("lib before the name");
    println!("cargo:rustc-link-search=native={}", folder.display());
    println!("cargo:rustc-link-lib=static={name}");
}

/// The archive that `CONSOLE_LINES_LIBRARY` names, else the one that `examples/library`
/// builds in the repository, else the installed one that pkg-config knows.
fn archive() -> PathBuf {
    println!("cargo:rerun-if-env-changed=CONSOLE_LINES_LIBRARY");
    println!("cargo:rerun-if-env-changed=PKG_CONFIG_PATH");
    let here = PathBuf::from(env::var_os("CARGO_MANIFEST_DIR").expect("the crate's folder"));
    let built = here.join("../../target/staticlib/libconsole.a");
    let path = match env::var_os("CONSOLE_LINES_LIBRARY") {
        Some(named) => PathBuf::from(named),
        None if built.exists() => built,
        None => installed().unwrap_or(built),
    };
    let lost = |e| {
        let path = path.display();
        panic!("no library {path}: {e}; build it, install it, or name it in CONSOLE_LINES_LIBRARY")
    };
    fs::canonicalize(&path).unwrap_or_else(lost)
}

fn installed() -> Option<PathBuf> {
    let variable = "--variable=libdir";
    let output = Command::new("pkg-config")
        .args([variable, PACKAGE])
        .output();
    let output = output.ok().filter(|output| output.status.success())?;
    let folder = String::from_utf8(output.stdout).ok()?;
    Some(Path::new(folder.trim()).join("libconsole.a"))
}
