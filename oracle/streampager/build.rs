//! Compiles the source files where they stand. Only line.rs is written anew, its
//! bytes as they are with one line behind them, so that the probe is its child; and
//! once more for the modes that the source has not, with what `split` counts for an
//! Unprintable span exchanged and one line behind it that gives its rows.

use std::path::{Path, PathBuf};
use std::{env, fs};

const UNCHANGED: [&str; 5] = ["config", "line_drawing", "overstrike", "search", "util"];

const PROBE: &str =
    "pub mod probe { include!(concat!(env!(\"CARGO_MANIFEST_DIR\"), \"/src/probe.rs\")); }\n";

const SPLIT: &str = "Span::Unprintable(_) => {
                let end = position + 8;";
const SPLIT_DRAWN: &str = "Span::Unprintable(grapheme) => {
                let end = position + crate::columns_drawn(grapheme);";
const ROWS: &str =
    "impl Line { pub fn rows(&self, width: usize, wrapping: WrappingMode) -> Vec<(usize, usize)> { self.make_wrap(width, wrapping) } }\n";

fn main() {
    println!("cargo:rerun-if-env-changed=CONSOLE_LINES_SOURCE");
    let here = PathBuf::from(env::var_os("CARGO_MANIFEST_DIR").unwrap());
    let out = PathBuf::from(env::var_os("OUT_DIR").unwrap());
    let source = source_folder(&here);

    let mut modules = String::new();
    for name in UNCHANGED {
        let path = source.join(name).with_extension("rs");
        modules += &module(name, &watched(&path));
    }
    let line = fs::read_to_string(watched(&source.join("line.rs"))).unwrap();
    assert_eq!(line.matches(SPLIT).count(), 1, "the one count in split");
    let drawn = line.replace(SPLIT, SPLIT_DRAWN);
    fs::write(out.join("line_drawn.rs"), drawn + ROWS).unwrap();
    fs::write(out.join("line.rs"), line + PROBE).unwrap();
    modules += &module("line_drawn", Path::new("line_drawn.rs"));
    modules += &module("line", Path::new("line.rs"));
    fs::write(out.join("source.rs"), modules).unwrap();
}

/// The folder with line.rs: named by the variable, or beside the repository.
fn source_folder(here: &Path) -> PathBuf {
    let folder = match env::var_os("CONSOLE_LINES_SOURCE") {
        Some(named) => PathBuf::from(named),
        None => here.join("../../../shared/docs/src"),
    };
    let folder = folder.join("src");
    folder
        .canonicalize()
        .unwrap_or_else(|e| panic!("no source in {}: {e}", folder.display()))
}

fn watched(path: &Path) -> PathBuf {
    println!("cargo:rerun-if-changed={}", path.display());
    path.to_path_buf()
}

fn module(name: &str, path: &Path) -> String {
    format!("#[allow(dead_code)]\n#[path = {path:?}]\nmod {name};\n")
}
