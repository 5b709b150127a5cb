//! Links the proved archive: libskaldrift.a in target/staticlib of the repository, which
//! `./archive` writes, or in the folder that SKALDRIFT_LIB names.
use std::env;
use std::path::PathBuf;

fn main() {
    println!("cargo::rerun-if-env-changed=SKALDRIFT_LIB");
    let named = env::var_os("SKALDRIFT_LIB").filter(|named| !named.is_empty());
    let folder = match named.map(PathBuf::from) {
        // A build script runs in its package's folder and not in the caller's.
        Some(named) if !named.is_absolute() => {
            println!(
                "cargo::error=SKALDRIFT_LIB is {}: name the archive's folder by its absolute path",
                named.display()
            );
            return;
        }
        Some(named) => named,
        None => {
            let here = env::var_os("CARGO_MANIFEST_DIR").expect("cargo sets it");
            PathBuf::from(here).join("../target/staticlib")
        }
    };
    let archive = folder.join("libskaldrift.a");
    println!("cargo::rerun-if-changed={}", archive.display());
    if !archive.is_file() {
        println!(
            "cargo::error={} is missing: make it with `./archive`, or set SKALDRIFT_LIB to its folder",
            archive.display()
        );
        return;
    }
    println!("cargo::rustc-link-search=native={}", folder.display());
    println!("cargo::rustc-link-lib=static=skaldrift");
}
