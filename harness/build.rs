//! Links libdoorplate.a from the folder DOORPLATE_LIBRARY, or from ../target/library.

use std::env;
use std::path::PathBuf;

fn main() {
    let here = PathBuf::from(env::var_os("CARGO_MANIFEST_DIR").expect("a folder"));
    let folder = match env::var_os("DOORPLATE_LIBRARY") {
        Some(folder) => here.join(folder),
        None => here.join("../target/library"),
    };
    println!("cargo:rerun-if-env-changed=DOORPLATE_LIBRARY");
    println!("cargo:rerun-if-changed={}", folder.join("libdoorplate.a").display());
    println!("cargo:rustc-link-search=native={}", folder.display());
    println!("cargo:rustc-link-lib=static=doorplate");
}
