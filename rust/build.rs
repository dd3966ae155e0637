//! Names the static library to the linker: the folder in `ROTSPANGLE_LIB`, else `crates/exports/out` of the repository,
//! where `rt lib` in `crates/exports` writes `libexports.a`.

use std::env;
use std::path::PathBuf;

fn main() {
    let here =
        PathBuf::from(env::var("CARGO_MANIFEST_DIR").expect("cargo names the package's folder"));
    let folder = env::var("ROTSPANGLE_LIB")
        .map_or_else(|_| here.join("../crates/exports/out"), PathBuf::from);
    println!("cargo:rerun-if-env-changed=ROTSPANGLE_LIB");
    println!(
        "cargo:rerun-if-changed={}",
        folder.join("libexports.a").display()
    );
    println!("cargo:rustc-link-search=native={}", folder.display());
    println!("cargo:rustc-link-lib=static=exports");
}
