//! Finds the proved library's archive. `scripts/archive.sh` writes it.

use std::env;
use std::path::PathBuf;

/// The variable that names the archive's folder.
const FOLDER: &str = "BARFIGOL_LIB_DIR";

fn main() {
    let folder = match env::var_os(FOLDER) {
        Some(folder) => PathBuf::from(folder),
        None => {
            let package =
                env::var_os("CARGO_MANIFEST_DIR").expect("cargo names the package's folder");
            PathBuf::from(package).join("../../target/staticlib")
        }
    };
    let archive = folder.join("libbarfigol.a");
    println!("cargo:rerun-if-env-changed={FOLDER}");
    println!("cargo:rerun-if-changed={}", archive.display());
    if !archive.is_file() {
        println!("cargo:warning={} is missing: run `scripts/archive.sh`, or name its folder by {FOLDER}", archive.display());
    }
    println!("cargo:rustc-link-search=native={}", folder.display());
    println!("cargo:rustc-link-lib=static=barfigol");
}
