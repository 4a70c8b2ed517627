//! Links the archive of the proved host calls.

use std::env;
use std::path::PathBuf;

/// The variable that names the folder of the archive.
const FOLDER: &str = "SHEET_HOST_FOLDER";
/// Where `tools/build host` writes it, from this package's folder.
const DEFAULT: &str = "../../../crates/host/out";

fn main() {
    let folder = archive_folder();
    let archive = folder.join("libhost.a");
    println!("cargo::rerun-if-env-changed={FOLDER}");
    println!("cargo::rerun-if-changed={}", archive.display());
    if !archive.is_file() {
        println!(
            "cargo::error={} is missing: run `tools/build host` in the repository, or set {FOLDER} to its folder",
            archive.display()
        );
        return;
    }
    println!("cargo::rustc-link-search=native={}", folder.display());
    println!("cargo::rustc-link-lib=static=host");
}

fn archive_folder() -> PathBuf {
    let of_repository = || PathBuf::from(env!("CARGO_MANIFEST_DIR")).join(DEFAULT);
    env::var_os(FOLDER).map_or_else(of_repository, PathBuf::from)
}
