//! Links libtest_journal.a, from the folder in which tripodmoon found libhost.a.

use std::path::PathBuf;
use std::{env, process};

fn main() {
    let host = env::var_os("DEP_HOST_LIBRARY").expect("tripodmoon hands on where libhost.a is");
    let library = PathBuf::from(host).with_file_name("libtest_journal.a");
    println!("cargo:rerun-if-env-changed=DEP_HOST_LIBRARY");
    println!("cargo:rerun-if-changed={}", library.display());
    let Some(folder) = library.parent().filter(|_| library.is_file()) else {
        eprintln!(
            "{} is not there: run `bin/archive test_journal` at the repository's root",
            library.display()
        );
        process::exit(1);
    };
    println!("cargo:rustc-link-search=native={}", folder.display());
    println!("cargo:rustc-link-lib=static=test_journal");
}
