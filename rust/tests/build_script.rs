//! What the build script says where it cannot link.

#[allow(dead_code)]
#[path = "../build.rs"]
mod build_script;

use build_script::{missing, unsupported};
use std::path::Path;

#[test]
fn x86_64_linux_alone_is_supported() {
    assert_eq!(unsupported("x86_64", "linux"), None);
    let others = [
        ("aarch64", "linux"),
        ("x86_64", "windows"),
        ("x86_64", "macos"),
        ("wasm32", "unknown"),
        ("", ""),
    ];
    for (arch, system) in others {
        let said = unsupported(arch, system).unwrap();
        assert!(said.contains("x86-64 Linux alone"), "{said}");
        let target = format!("this build is for {arch} {system}. Build for");
        assert!(said.contains(&target), "{said}");
        assert!(!said.contains('\n'), "one line, as cargo reads it");
    }
}

#[test]
fn an_archive_that_is_not_there_is_named() {
    let here = Path::new(env!("CARGO_MANIFEST_DIR"));
    let said = missing(&here.join("libziwhakemo.a")).unwrap();
    assert!(said.contains("run `make`"), "{said}");
    assert!(said.contains("ZIWHAKEMO_LIB_DIR"), "{said}");
    assert_eq!(missing(&here.join("build.rs")), None);
}
