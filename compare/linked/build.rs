//! Links the library under test: `liblig.a` in the folder that LIG_LIB names, or in the
//! repository's `target/lig`.

use std::env;
use std::path::PathBuf;

fn main() {
    let folder = match env::var_os("LIG_LIB") {
        Some(folder) => PathBuf::from(folder),
        None => PathBuf::from(env::var_os("CARGO_MANIFEST_DIR").expect("set by cargo"))
            .join("../../target/lig"),
    };
    let archive = folder.join("liblig.a");
    println!("cargo::rerun-if-env-changed=LIG_LIB");
    println!("cargo::rerun-if-changed={}", archive.display());
    println!("cargo::rustc-link-search=native={}", folder.display());
    println!("cargo::rustc-link-lib=static=lig");
}
