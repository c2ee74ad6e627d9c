//! Reads a script of docs/REPLAY.md from standard input, makes its calls through the crate, and writes a line of answer
//! for each, as the program `replay` does. Where a word damages a state or puts an entry, there is no call for it: the
//! columns are made here.

mod machine;

use std::io::{self, BufRead, BufWriter, Write};

fn main() -> io::Result<()> {
    let mut input = io::stdin().lock();
    let mut output = BufWriter::new(io::stdout().lock());
    let mut machine = machine::Machine::new();
    let mut line = Vec::new();
    while input.read_until(b'\n', &mut line)? > 0 {
        if line.ends_with(b"\n") {
            line.pop();
        }
        output.write_all(machine.line(&line).as_bytes())?;
        line.clear();
    }
    output.flush()
}
