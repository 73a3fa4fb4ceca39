//! Hands the place of libhost.a to the program, which prints its size.

use std::env;

fn main() {
    println!("cargo:rerun-if-env-changed=DEP_HOST_LIBRARY");
    if let Ok(library) = env::var("DEP_HOST_LIBRARY") {
        println!("cargo:rerun-if-changed={library}");
        println!("cargo:rustc-env=LIBHOST={library}");
    }
}
