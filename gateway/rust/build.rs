//! Finds the static library: in the folder that WARPTEASEL_LIB names, else where `gateway/build` puts it.

use std::env;
use std::path::{Path, PathBuf};
use std::process::exit;

fn main() {
    println!("cargo:rerun-if-env-changed=WARPTEASEL_LIB");
    let project = Path::new(env!("CARGO_MANIFEST_DIR")).ancestors().nth(2).unwrap_or(Path::new("/"));
    let folder = env::var_os("WARPTEASEL_LIB").map_or(project.join("target/warpteasel"), PathBuf::from);
    let library = folder.join("libwarpteasel.a");
    println!("cargo:rerun-if-changed={}", library.display());
    if !library.is_file() {
        eprintln!(
            "warpteasel: there is no {}; make it with gateway/build, or name its folder in WARPTEASEL_LIB",
            library.display()
        );
        exit(1);
    }
    println!("cargo:rustc-link-search=native={}", folder.display());
    println!("cargo:rustc-link-lib=static=warpteasel");
}
