//! From a line of a script to its call, and back to a line of answer.

use crate::answer::Answer;
use crate::call::Call;
use crate::parse::{self, Stop};
use crate::world::World;
use crate::{decision_calls, neighbor_calls, route_calls, table_lines};

/// One line of a script, without its line feed. Its answer, if it has one, goes to `out`.
pub fn line(world: &mut World, line: &[u8], out: &mut Answer) {
    if parse::passed_over(line) {
        return;
    }
    let start = out.text.len();
    let (word, mut args) = parse::split(line);
    if word == b"tables" && args.end().is_ok() {
        table_lines::tables(world, out);
        return;
    }
    out.word("ok");
    let done = match call(word) {
        Some(call) => call(world, &mut args, out),
        None => Err(Stop::Bad),
    };
    if let Err(stop) = done {
        out.text.truncate(start);
        match stop {
            Stop::Bad => out.word("bad"),
            Stop::Refuse(number) => out.word("refuse").n(number),
        };
    }
    out.line();
}

fn call(word: &[u8]) -> Option<Call> {
    table_lines::call(word)
        .or_else(|| route_calls::call(word))
        .or_else(|| neighbor_calls::call(word))
        .or_else(|| decision_calls::call(word))
}
