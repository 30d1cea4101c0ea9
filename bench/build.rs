//! Links the static libraries of the crates `exports` and `replay`, which `rt lib` writes into their folders `out`.

use std::env;
use std::path::PathBuf;

fn main() {
    let here = PathBuf::from(env::var("CARGO_MANIFEST_DIR").expect("cargo names the folder"));
    let crates = here.parent().expect("bench/ stands in the repository").join("crates");
    for name in ["exports", "replay"] {
        let folder = crates.join(name).join("out");
        println!("cargo:rustc-link-search=native={}", folder.display());
        println!("cargo:rerun-if-changed={}", folder.join(format!("lib{name}.a")).display());
        println!("cargo:rustc-link-lib=static={name}");
    }
}
