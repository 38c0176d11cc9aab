//! Links the archive of the proved engine: from the folder that `BAZKONDUR_LIB` names, else from
//! where `tools/archive.sh` puts it.

use std::env;
use std::path::PathBuf;
use std::process::exit;

fn main() {
    println!("cargo::rerun-if-env-changed=BAZKONDUR_LIB");
    // For another target there is no archive, and the crate itself says so.
    let target = |key| env::var(key).unwrap_or_default();
    if target("CARGO_CFG_TARGET_ARCH") != "x86_64" || target("CARGO_CFG_TARGET_OS") != "linux" {
        return;
    }
    let root = PathBuf::from(target("CARGO_MANIFEST_DIR"));
    let folder = env::var_os("BAZKONDUR_LIB").unwrap_or("../target/staticlib".into());
    let folder = root.join(folder);
    let archive = folder.join("libbazkondur.a");
    println!("cargo::rerun-if-changed={}", archive.display());
    if !archive.is_file() {
        eprintln!("there is no {}", archive.display());
        eprintln!("`tools/archive.sh`, at the root of the repository, makes it; BAZKONDUR_LIB names another folder");
        exit(1);
    }
    println!("cargo::rustc-link-search=native={}", folder.display());
    println!("cargo::rustc-link-lib=static=bazkondur");
}
