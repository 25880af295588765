//! Links the library that tests/compare names, from a copy in a folder that bears the hash of its
//! content: cargo goes by dates and would take a changed library with an older one for the same.

use std::path::Path;
use std::{env, fs};

fn main() {
    println!("cargo:rerun-if-env-changed=SHEET_FFI_SHA256");
    let Ok(hash) = env::var("SHEET_FFI_SHA256") else {
        return; // Nothing is linked: the stub, or another package that takes the random sheets alone.
    };
    let archive = env::var("SHEET_FFI").expect("tests/compare names the library with its hash");
    let folder = Path::new(&env::var("OUT_DIR").expect("cargo sets it")).join(&hash);
    fs::create_dir_all(&folder).expect("cargo's folder can be written");
    fs::copy(&archive, folder.join("libsheet_ffi.a")).expect("the library can be copied");
    println!("cargo:rustc-link-search=native={}", folder.display());
    println!("cargo:rustc-env=SHEET_FFI_SHA256={hash}");
}
