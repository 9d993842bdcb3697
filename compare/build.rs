//! Links the probe. The library itself is linked by the crate in `rust/`, which tells its folder.

use std::env;
use std::path::Path;

fn main() {
    let folder = env::var("DEP_ZIWHAKEMO_FOLDER").expect("the crate ziwhakemo tells its folder");
    let archive = Path::new(&folder).join("libprobe.a");
    println!("cargo::rerun-if-changed={}", archive.display());
    if !archive.is_file() {
        println!(
            "cargo::error=no file {}: run `make probe` in the repository's root, \
             or name the archives' folder in ZIWHAKEMO_LIB_DIR",
            archive.display()
        );
    }
    println!("cargo::rustc-link-search=native={folder}");
    println!("cargo::rustc-link-lib=static=probe");
}
