//! A script: lines from a reader, answered one by one.

use std::io::{self, BufRead, Write};

use crate::answer::Answer;
use crate::dispatch;
use crate::world::World;

/// How many bytes of answers are held before they are written.
const HELD: usize = 1 << 16;

/// Has every line of `script` answered in turn. The last line needs no line feed.
pub fn run(mut answer: impl FnMut(&[u8], &mut Answer), mut script: impl BufRead, mut to: impl Write) -> io::Result<()> {
    let (mut line, mut out) = (Vec::new(), Answer::default());
    while next_line(&mut script, &mut line)? {
        answer(&line, &mut out);
        if out.text.len() >= HELD {
            to.write_all(&out.text)?;
            out.text.clear();
        }
    }
    to.write_all(&out.text)?;
    to.flush()
}

/// The next line without its line feed; false at the end.
fn next_line(script: &mut impl BufRead, line: &mut Vec<u8>) -> io::Result<bool> {
    line.clear();
    let read = script.read_until(b'\n', line)?;
    if line.last() == Some(&b'\n') {
        line.pop();
    }
    Ok(read > 0)
}

/// The answers to a whole script, on a fresh state.
pub fn answers(script: &str) -> String {
    answers_of(World::default(), script)
}

/// The answers to a whole script on a state that is given.
pub fn answers_of(mut world: World, script: &str) -> String {
    answers_by(|line, out| dispatch::line(&mut world, line, out), script)
}

/// The answers to a whole script by the way of answering a line that is given.
pub fn answers_by(answer: impl FnMut(&[u8], &mut Answer), script: &str) -> String {
    let mut out = Vec::new();
    run(answer, script.as_bytes(), &mut out).expect("a text in memory can be read");
    String::from_utf8(out).expect("answers are plain text")
}
