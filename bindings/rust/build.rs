//! Links the proved static library.
//!
//! Takes it from the folder that `NOSGRIVEL_LIB_DIR` names. The default is the folder in which `scripts/c-library` or
//! `scripts/install` put it for the target.

use std::env;
use std::path::PathBuf;

const LIBRARY: &str = "libnosgrivel.a";

fn main() {
    println!("cargo:rerun-if-changed=build.rs");
    println!("cargo:rerun-if-env-changed=NOSGRIVEL_LIB_DIR");
    let target = variable("TARGET");
    let built = match target.split_once('-') {
        Some(("x86_64", system)) if system.contains("-linux-") => "../out",
        Some(("aarch64", system)) if system.contains("-linux-") => "../out/aarch64",
        _ => panic!("unsupported target: expected Linux on x86-64 or aarch64, found {target}"),
    };
    let folder =
        env::var_os("NOSGRIVEL_LIB_DIR").map_or_else(|| default_folder(built), PathBuf::from);
    let library = folder.join(LIBRARY);
    println!("cargo:rerun-if-changed={}", library.display());
    assert!(
        library.is_file(),
        "{} not found: run scripts/c-library or scripts/install, or set NOSGRIVEL_LIB_DIR to its folder",
        library.display()
    );
    println!("cargo:rustc-link-search=native={}", folder.display());
    println!("cargo:rustc-link-lib=static=nosgrivel");
}

/// Returns the folder of the library beside this crate: `built` in a clone, or below the prefix of an installation.
fn default_folder(built: &str) -> PathBuf {
    let here = PathBuf::from(variable("CARGO_MANIFEST_DIR"));
    let (built, installed) = (here.join(built), here.join("../../../lib"));
    if !built.join(LIBRARY).is_file() && installed.join(LIBRARY).is_file() {
        installed
    } else {
        built
    }
}

fn variable(name: &str) -> String {
    env::var(name).unwrap_or_else(|_| panic!("cargo sets {name}"))
}
