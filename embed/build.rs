//! Links the static libraries that `tools/build` writes: those of the folder LEVELBOOK_LIB_DIR, or of target/staticlib of the repository.
use std::path::{Path, PathBuf};

fn main() {
    let package = std::env::var("CARGO_MANIFEST_DIR").expect("cargo sets it");
    println!("cargo:rerun-if-env-changed=LEVELBOOK_LIB_DIR");
    let folder = match std::env::var_os("LEVELBOOK_LIB_DIR") {
        Some(given) => PathBuf::from(given),
        None => Path::new(&package).join("../target/staticlib"),
    };
    println!("cargo:rustc-link-search=native={}", folder.display());
    let names = ["rootcalls", "adjust", "runner", "fieldbook", "levelbook"];
    for name in names {
        let library = folder.join(format!("lib{name}.a"));
        println!("cargo:rerun-if-changed={}", library.display());
        if !library.is_file() {
            eprintln!("{} is missing.", library.display());
            eprintln!("At the root of the repository run: tools/build");
            eprintln!("Or give the folder that has the libraries as LEVELBOOK_LIB_DIR, a full path.");
            std::process::exit(1);
        }
        println!("cargo:rustc-link-lib=static={name}");
    }
}
