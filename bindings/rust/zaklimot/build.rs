//! Tells the crate where the font file lies that goes with the library, and the header that the
//! tests read.

use std::env;

fn main() {
    for name in ["FONTS", "HEADER"] {
        println!("cargo:rerun-if-env-changed=DEP_ZAKLIMOT_{name}");
        // Without a library there is none, as where docs.rs makes the pages.
        if let Ok(path) = env::var(format!("DEP_ZAKLIMOT_{name}")) {
            println!("cargo:rerun-if-changed={path}");
            println!("cargo:rustc-env=ZAKLIMOT_{name}={path}");
        }
    }
}
