//! Tells the linker where the archive of the C interface stands.

use std::env;
use std::path::PathBuf;

fn main() {
    let directory = match env::var_os("HALIVOMUE_ARCHIVE_DIR") {
        Some(directory) => PathBuf::from(directory),
        None => PathBuf::from(env::var_os("CARGO_MANIFEST_DIR").expect("set by cargo"))
            .join("../../crates/halivomue_c/out"),
    };
    println!("cargo:rerun-if-env-changed=HALIVOMUE_ARCHIVE_DIR");
    println!("cargo:rerun-if-changed={}", directory.join("libhalivomue_c.a").display());
    println!("cargo:rustc-link-search=native={}", directory.display());
}
