//! Declares agari-core's modules where their files lie, so that they are compiled unchanged.

use std::env;
use std::fs;
use std::path::{Path, PathBuf};

const MODULES: [&str; 9] = [
    "context",
    "hand",
    "local_yaku",
    "parse",
    "rules",
    "scoring",
    "tile",
    "wait",
    "yaku",
];

/// What AGARI_SRC has to be.
const WANTED: &str = "AGARI_SRC names the folder that holds crates/agari-core/src: a clone of \
    agari-industries/agari at commit 77c0cdc396";

fn main() {
    println!("cargo::rerun-if-env-changed=AGARI_SRC");
    match source_folder().and_then(|folder| declarations(&folder)) {
        Ok(declarations) => {
            let out = PathBuf::from(env::var("OUT_DIR").unwrap()).join("modules.rs");
            fs::write(out, declarations).unwrap();
        }
        Err(fault) => println!("cargo::error={fault}. {WANTED}"),
    }
}

/// The folder that AGARI_SRC names, read from the repository's root, which is two folders above this
/// package.
fn source_folder() -> Result<PathBuf, String> {
    let package = PathBuf::from(env::var("CARGO_MANIFEST_DIR").unwrap());
    let root = package.ancestors().nth(2).unwrap();
    let named = env::var("AGARI_SRC").unwrap_or_default();
    match named.as_str() {
        "" => Err("AGARI_SRC is not set".into()),
        folder => Ok(root.join(folder)),
    }
}

/// A line for each module.
fn declarations(folder: &Path) -> Result<String, String> {
    let mut declarations = String::new();
    for module in MODULES {
        let file = folder.join(format!("crates/agari-core/src/{module}.rs"));
        if !file.is_file() {
            return Err(format!("no file {}", file.display()));
        }
        println!("cargo::rerun-if-changed={}", file.display());
        declarations += &format!("#[path = {file:?}]\npub mod {module};\n");
    }
    Ok(declarations)
}
