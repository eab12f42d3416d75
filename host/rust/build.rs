//! Links the compiled library: the archive that the environment variable WARINTAYA names, or else the one that `host/library` has
//! left in the repository.

use std::path::{Path, PathBuf};
use std::process::exit;
use std::{env, fs};

/// Where the library stands for the processor that is compiled for, if nothing else is said.
fn usual_place(root: &Path) -> PathBuf {
    let machine = env::var("CARGO_CFG_TARGET_ARCH").unwrap_or_default();
    root.join("built").join(machine).join("libwarintaya.a")
}

fn main() {
    println!("cargo:rerun-if-env-changed=WARINTAYA");
    println!("cargo:rerun-if-changed=build.rs");
    let variable = |name| PathBuf::from(env::var_os(name).unwrap_or_default());
    let root = variable("CARGO_MANIFEST_DIR").join("../..");
    let library = env::var_os("WARINTAYA").map_or_else(|| usual_place(&root), PathBuf::from);
    let shown = library.display();
    println!("cargo:rerun-if-changed={shown}");
    if !library.is_file() {
        eprintln!(
            "there is no compiled library at {shown}: run 'host/library' at the repository's root, or \
             name one by WARINTAYA"
        );
        exit(1);
    }
    let folder = variable("OUT_DIR");
    if let Err(why) = fs::copy(&library, folder.join("libwarintaya.a")) {
        eprintln!("{shown} can't be linked: {why}");
        exit(1);
    }
    println!("cargo:rustc-link-search=native={}", folder.display());
    println!("cargo:rustc-link-lib=static=warintaya");
}
