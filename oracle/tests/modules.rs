//! The modules of `src/` use each other one way: none goes round in a circle.

use std::collections::BTreeMap;
use std::fs;

/// Each module, and the names that it takes from the crate.
type Uses = BTreeMap<String, Vec<String>>;

/// The names that follow `crate::` in a source: one, or several in braces. Comments are left out.
fn names(source: &str) -> Vec<String> {
    let code: Vec<&str> = source.lines().filter(|line| !line.trim_start().starts_with("//")).collect();
    let code = code.join("\n");
    let mut names = Vec::new();
    for rest in code.split("crate::").skip(1) {
        // How many braces are open, and whether a name can begin here.
        let (mut depth, mut begins) = (0, true);
        for part in rest.split_inclusive(|c: char| !c.is_alphanumeric() && c != '_') {
            let name = part.trim_end_matches(|c: char| !c.is_alphanumeric() && c != '_');
            if begins && !name.is_empty() {
                names.push(name.to_owned());
                begins = false;
            }
            match part.chars().last() {
                Some('{') => depth += 1,
                Some('}') => depth -= 1,
                Some(',') => begins = depth == 1,
                _ => {}
            }
            if depth == 0 {
                break;
            }
        }
    }
    names
}

/// The modules that reach themselves, or lie between two that do.
fn round(mut uses: Uses) -> Vec<String> {
    loop {
        let left: Vec<String> = uses.keys().cloned().collect();
        let used: Vec<String> = uses.values().flatten().cloned().collect();
        uses.retain(|module, names| used.contains(module) && names.iter().any(|name| left.contains(name)));
        if uses.len() == left.len() {
            return left;
        }
    }
}

/// The files directly under `src/`, but for the crate's root and the program's.
fn sources() -> Uses {
    let mut uses = Uses::new();
    for file in fs::read_dir(concat!(env!("CARGO_MANIFEST_DIR"), "/src")).expect("src/ can be listed") {
        let path = file.expect("readable").path();
        let module = path.file_stem().expect("a file has a name").to_string_lossy().into_owned();
        if path.is_file() && module != "lib" && module != "main" {
            uses.insert(module, names(&fs::read_to_string(&path).expect("a source is text")));
        }
    }
    uses
}

#[test]
fn no_module_of_the_oracle_uses_itself_in_a_circle() {
    let uses = sources();
    let root = include_str!("../src/lib.rs");
    let declared = root.lines().filter_map(|line| line.strip_prefix("pub mod ")?.strip_suffix(';'));
    for module in declared.filter(|&module| module != "stand_ins") {
        assert!(uses.contains_key(module), "{module} was not read");
    }
    for module in ["parse", "world", "route_calls", "neighbor_calls", "decision_calls", "table_lines"] {
        assert!(uses["dispatch"].iter().any(|name| name == module), "dispatch uses {module}");
    }
    assert_eq!(round(uses), Vec::<String>::new());
}

#[test]
fn a_circle_is_found() {
    let top = ("top", "use crate::{\n    left::{self, crate_name, Thing},\n    right,\n};\n");
    let left = ("left", "use crate::right::Other;\n// use crate::top;\n");
    let graph = |right: &str| -> Uses {
        let sources = [top, left, ("right", right), ("bottom", "")];
        sources.into_iter().map(|(module, source)| (module.to_owned(), names(source))).collect()
    };
    assert_eq!(graph("")["top"], ["left", "right"]);
    assert_eq!(graph("")["left"], ["right"]);
    assert_eq!(round(graph("use crate::bottom;\n")), Vec::<String>::new());
    assert_eq!(round(graph("use crate::bottom;\nfn f() { crate::left::g() }\n")), ["left", "right"]);
    assert_eq!(round(graph("use crate::{bottom, top};\n")), ["left", "right", "top"]);
    assert_eq!(round(graph("use crate::right::Inner;\n")), ["right"]);
}
