//! Links the proved library, and tells its folder to the build scripts of the packages that depend on
//! this one directly.

use std::env;
use std::path::{Path, PathBuf};

fn main() {
    let [arch, system] = ["CARGO_CFG_TARGET_ARCH", "CARGO_CFG_TARGET_OS"].map(given);
    let archive = library_folder().join("libziwhakemo.a");
    println!("cargo::rerun-if-env-changed=ZIWHAKEMO_LIB_DIR");
    println!("cargo::rerun-if-changed={}", archive.display());
    match unsupported(&arch, &system).or_else(|| missing(&archive)) {
        Some(fault) => println!("cargo::error={fault}"),
        None => link(&library_folder()),
    }
}

/// What cargo says; nothing where it does not.
fn given(variable: &str) -> String {
    env::var(variable).unwrap_or_default()
}

/// What is said where the archive's code does not run.
pub fn unsupported(arch: &str, system: &str) -> Option<String> {
    let is_supported = arch == "x86_64" && system == "linux";
    (!is_supported).then(|| {
        format!(
            "libziwhakemo.a is code for x86-64 Linux alone, and this build is for {arch} {system}. \
             Build for x86-64 Linux, such as with `--target x86_64-unknown-linux-gnu`, or leave this \
             crate out elsewhere: `[target.'cfg(all(target_arch = \"x86_64\", target_os = \
             \"linux\"))'.dependencies]`"
        )
    })
}

/// What is said where the archive is not there.
pub fn missing(archive: &Path) -> Option<String> {
    (!archive.is_file()).then(|| {
        format!(
            "no file {}: run `make` in the repository's root, \
             or name the archive's folder in ZIWHAKEMO_LIB_DIR",
            archive.display()
        )
    })
}

/// The archive's folder: ZIWHAKEMO_LIB_DIR, or else target/staticlib. Both are read from the
/// repository's root, which is the folder above this package.
fn library_folder() -> PathBuf {
    let package = PathBuf::from(given("CARGO_MANIFEST_DIR"));
    let root = package.parent().unwrap_or(Path::new("."));
    root.join(env::var("ZIWHAKEMO_LIB_DIR").unwrap_or("target/staticlib".into()))
}

/// Links the archive. The folder reaches a direct dependent as DEP_ZIWHAKEMO_FOLDER.
fn link(folder: &Path) {
    println!("cargo::rustc-link-search=native={}", folder.display());
    println!("cargo::rustc-link-lib=static=ziwhakemo");
    println!("cargo::metadata=FOLDER={}", folder.display());
}
