//! Links libhost.a, from target/staticlib at the repository's root or from where TRIPODMOON_LIB says; with the features
//! `personalise` and `cabinet` libpersonalise.a and libcabinet.a too, from the same folder.

use std::path::{Path, PathBuf};
use std::{env, process};

fn main() {
    println!("cargo:rerun-if-env-changed=TRIPODMOON_LIB");
    let folder = match env::var_os("TRIPODMOON_LIB") {
        Some(path) => folder_of(PathBuf::from(path)),
        None => {
            let here = env::var_os("CARGO_MANIFEST_DIR").expect("cargo sets CARGO_MANIFEST_DIR");
            Path::new(&here).join("../../target/staticlib")
        }
    };
    println!("cargo:rustc-link-search=native={}", folder.display());
    let library = link(&folder, "host");
    if env::var_os("CARGO_FEATURE_PERSONALISE").is_some() {
        link(&folder, "personalise");
    }
    if env::var_os("CARGO_FEATURE_CABINET").is_some() {
        link(&folder, "cabinet");
    }
    // DEP_HOST_LIBRARY for the crates that depend on this one.
    println!("cargo:library={}", library.display());
}

/// Links the archive of a crate, and says where it is.
fn link(folder: &Path, name: &str) -> PathBuf {
    let library = folder.join(format!("lib{name}.a"));
    if !library.is_file() {
        eprintln!(
            "{} is not there: run `bin/archive {name}` at the repository's root, \
             or set TRIPODMOON_LIB to libhost.a or its folder",
            library.display()
        );
        process::exit(1);
    }
    println!("cargo:rerun-if-changed={}", library.display());
    println!("cargo:rustc-link-lib=static={name}");
    library
}

/// TRIPODMOON_LIB names the library or its folder.
fn folder_of(path: PathBuf) -> PathBuf {
    match path.parent() {
        Some(parent) if path.is_file() => parent.to_path_buf(),
        _ => path,
    }
}
