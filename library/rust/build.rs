//! Links the static library: that in the folder LIZSOMDUR_LIB names, or else the one of the release that this package came with, or else the one that
//! `tools/build exports` writes in this repository.
use std::env;
use std::path::{Path, PathBuf};

/// The names that the library has in a release and in the repository.
const NAMES: [&str; 2] = ["lizsomdur", "exports"];

/// The archive of this name in a folder.
fn archive(folder: &Path, name: &str) -> PathBuf {
    folder.join(format!("lib{name}.a"))
}

fn main() {
    println!("cargo:rerun-if-env-changed=LIZSOMDUR_LIB");
    let package = PathBuf::from(env::var_os("CARGO_MANIFEST_DIR").expect("cargo"));
    let folders = match env::var_os("LIZSOMDUR_LIB") {
        Some(folder) => vec![PathBuf::from(folder)],
        None => ["../lib", "../../target/staticlib"]
            .map(|folder| package.join(folder))
            .into(),
    };
    let found = folders
        .iter()
        .flat_map(|folder| NAMES.map(|name| (folder, name)))
        .find(|(folder, name)| archive(folder, name).exists());
    let Some((folder, name)) = found else {
        panic!("no libexports.a and no liblizsomdur.a in {folders:?}: LIZSOMDUR_LIB may name the folder");
    };
    println!("cargo:rerun-if-changed={}", archive(folder, name).display());
    println!("cargo:rustc-link-search=native={}", folder.display());
    println!("cargo:rustc-link-lib=static={name}");
}
