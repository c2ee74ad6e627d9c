//! Every stored script through the crate: each line is answered as `replay` answers it.

#[path = "../examples/replay/machine/mod.rs"]
mod machine;

use machine::Machine;
use std::fs;
use std::path::{Path, PathBuf};

fn top() -> PathBuf {
    Path::new(env!("CARGO_MANIFEST_DIR")).join("../..")
}

/// Plays a script, and counts its lines.
fn same(script: &Path, answers: &Path) -> usize {
    let (script, answers) = (fs::read(script).unwrap(), fs::read_to_string(answers).unwrap());
    let mut machine = Machine::new();
    let mut expected = answers.split_inclusive('\n');
    for line in script.split(|byte| *byte == b'\n') {
        for answer in machine.line(line).split_inclusive('\n') {
            assert_eq!(Some(answer), expected.next(), "{}", String::from_utf8_lossy(line));
        }
    }
    assert_eq!(expected.next(), None);
    answers.lines().count()
}

#[test]
fn scripts_are_answered_as_the_rust_answered_them() {
    let mut count = 0;
    for entry in fs::read_dir(top().join("scripts")).unwrap() {
        let path = entry.unwrap().path();
        if path.extension().is_some_and(|extension| extension == "txt") {
            count += same(&path, &path.with_extension("answers"));
        }
    }
    assert!(count > 500, "{count} lines");
}

#[test]
fn the_lines_that_damage_a_state_are_answered_as_replay_answers_them() {
    let count = same(&top().join("crates/replay/stdin"), &top().join("crates/replay/stdout"));
    assert!(count > 500, "{count} lines");
}
