//! Finds the Rust sources and declares them as modules, unchanged.
//!
//! The sources stand in no directory of this repository. `ORACLE_SRC` names the directory; without it
//! `../shared/docs/src`, seen from the repository's root, is taken.
//!
//! A source whose private tables must be seen is copied byte for byte beside the build's other files, with one line
//! after its last: the declaration of a child module of ours, which may look at its parent's private fields.

use std::path::{Path, PathBuf};
use std::{env, fs, process};

/// Each source: its module, its path under the directory, and the child module that looks into it.
const SOURCES: [(&str, &str, Option<&str>); 6] = [
    ("flat_map", "flat_map.rs", None),
    ("ring_buffer", "ring_buffer.rs", Some("ring_buffer.rs")),
    ("time", "time.rs", None),
    ("routing", "nwk/routing.rs", Some("routing.rs")),
    ("neighbors", "nwk/neighbors.rs", Some("neighbors.rs")),
    ("next_hop", "nwk/next_hop.rs", None),
];

fn stop(why: &str) -> ! {
    eprintln!("oracle: {why}");
    process::exit(1);
}

fn root() -> PathBuf {
    let here = PathBuf::from(env::var("CARGO_MANIFEST_DIR").expect("cargo sets this"));
    let given = match env::var_os("ORACLE_SRC") {
        Some(given) => PathBuf::from(given),
        None => here.join("../../shared/docs/src"),
    };
    match given.canonicalize() {
        Ok(found) => found.join("crates/ziggurat-zigbee/src"),
        Err(_) => stop(&format!(
            "no Rust sources at {}; set ORACLE_SRC to the directory that holds crates/ziggurat-zigbee/src",
            given.display()
        )),
    }
}

/// The file to compile for a source: the source itself, or its bytes with the child module's line after them.
fn compiled(source: &Path, module: &str, child: Option<&str>, out: &Path) -> PathBuf {
    let Some(child) = child else {
        return source.to_path_buf();
    };
    let here = PathBuf::from(env::var("CARGO_MANIFEST_DIR").expect("cargo sets this"));
    let child = here.join("src/peek").join(child);
    println!("cargo:rerun-if-changed={}", child.display());
    let mut bytes = fs::read(source).unwrap_or_else(|e| stop(&format!("{}: {e}", source.display())));
    bytes.extend_from_slice(format!("\n#[path = {:?}]\npub mod peek;\n", child).as_bytes());
    let copy = out.join(format!("{module}.rs"));
    fs::write(&copy, bytes).unwrap_or_else(|e| stop(&format!("{}: {e}", copy.display())));
    copy
}

fn main() {
    println!("cargo:rerun-if-env-changed=ORACLE_SRC");
    println!("cargo:rerun-if-changed=build.rs");
    let root = root();
    let out = PathBuf::from(env::var_os("OUT_DIR").expect("cargo sets this"));
    let (mut outer, mut inner) = (String::new(), String::new());
    for (module, path, child) in SOURCES {
        let source = root.join(path);
        if !source.is_file() {
            stop(&format!("the Rust source {path} is missing from {}", root.display()));
        }
        println!("cargo:rerun-if-changed={}", source.display());
        let file = compiled(&source, module, child, &out);
        let line = format!("#[allow(unused, clippy::all)]\n#[path = {file:?}]\npub mod {module};\n");
        if path.starts_with("nwk/") { &mut inner } else { &mut outer }.push_str(&line);
    }
    let text =
        format!("{outer}\npub mod nwk {{\npub use crate::stand_ins::{{NwkDeviceType, commands, frame}};\n{inner}}}\n");
    fs::write(out.join("sources.rs"), text).unwrap_or_else(|e| stop(&format!("the module list: {e}")));
    link_speed();
}

/// The benchmark alone links the static library `speed` and that for gateways, with the loops over its C header: `ORACLE_SPEED` names the directory
/// of libspeed.a, liblinked.a and libwarpteasel.a.
fn link_speed() {
    println!("cargo:rerun-if-env-changed=ORACLE_SPEED");
    if env::var_os("CARGO_FEATURE_BENCH").is_none() {
        return;
    }
    let Some(directory) = env::var_os("ORACLE_SPEED").map(PathBuf::from) else {
        stop("ORACLE_SPEED names no directory of the libraries to time; oracle/bench sets it");
    };
    for name in ["libspeed.a", "liblinked.a", "libwarpteasel.a"] {
        let archive = directory.join(name);
        println!("cargo:rerun-if-changed={}", archive.display());
        println!("cargo:rustc-link-arg-bin=bench={}", archive.display());
    }
}
