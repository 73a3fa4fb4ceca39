//! Links libtest_reading.a and libtest_reading_flat.a, from the folder in which tripodmoon found libhost.a.

use std::path::PathBuf;
use std::{env, process};

fn main() {
    let host = env::var_os("DEP_HOST_LIBRARY").expect("tripodmoon hands on where libhost.a is");
    println!("cargo:rerun-if-env-changed=DEP_HOST_LIBRARY");
    for name in ["test_reading", "test_reading_flat"] {
        let library = PathBuf::from(&host).with_file_name(format!("lib{name}.a"));
        println!("cargo:rerun-if-changed={}", library.display());
        let Some(folder) = library.parent().filter(|_| library.is_file()) else {
            eprintln!(
                "{} is not there: run `bin/archive {name}` at the repository's root",
                library.display()
            );
            process::exit(1);
        };
        println!("cargo:rustc-link-search=native={}", folder.display());
        println!("cargo:rustc-link-lib=static={name}");
    }
}
