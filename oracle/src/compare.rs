//! Both sides on the same script: the oracle, and a program that reads a script and prints answers.

use std::io::{Read, Write};
use std::process::{Child, Command, Stdio};
use std::sync::mpsc;
use std::thread;
use std::time::{Duration, Instant};

use crate::answer::Answer;
use crate::dispatch;
use crate::draw::Random;
use crate::generate::Generator;
use crate::parse::passed_over;
use crate::profile::Profile;
use crate::table_lines::tables;
use crate::world::World;

/// Prints a line. A reader who went away, as `head` does, is no fault.
macro_rules! say {
    ($($what:tt)*) => {
        _ = writeln!(std::io::stdout(), $($what)*)
    };
}

/// How many calls go to the program at once.
pub const PIECE: u64 = 20_000;

/// How long the program may take over one piece.
const PATIENCE: Duration = Duration::from_secs(300);

/// The program that is compared, with its arguments.
pub struct Program {
    pub command: Vec<String>,
}

/// A script as its lines, and the oracle's answers.
#[derive(Default)]
struct Piece {
    lines: Vec<Vec<u8>>,
    answers: Vec<u8>,
}

impl Piece {
    fn of(lines: Vec<Vec<u8>>) -> Self {
        let mut world = World::default();
        let mut out = Answer::default();
        for line in &lines {
            dispatch::line(&mut world, line, &mut out);
        }
        Self { lines, answers: out.text }
    }

    fn script(&self) -> Vec<u8> {
        let mut script = Vec::new();
        for line in &self.lines {
            script.extend_from_slice(line);
            script.push(b'\n');
        }
        script
    }

    fn calls(&self) -> u64 {
        self.lines.iter().filter(|line| !passed_over(line)).count() as u64
    }

    /// The place of the script line that the answer line at `place` belongs to.
    fn line_of_answer(&self, place: usize) -> usize {
        let (mut world, mut seen) = (World::default(), 0);
        for (at, line) in self.lines.iter().enumerate() {
            let mut out = Answer::default();
            dispatch::line(&mut world, line, &mut out);
            seen += out.text.iter().filter(|&&b| b == b'\n').count();
            if seen > place {
                return at;
            }
        }
        self.lines.len().saturating_sub(1)
    }
}

/// The first answer line that differs: its place, the oracle's and the program's (none where there is no such line).
struct Difference {
    place: usize,
    ours: Option<String>,
    theirs: Option<String>,
}

fn first_difference(ours: &[u8], theirs: &[u8]) -> Option<Difference> {
    if ours == theirs {
        return None;
    }
    let mut a = ours.split_inclusive(|&b| b == b'\n');
    let mut b = theirs.split_inclusive(|&b| b == b'\n');
    let text = |line: Option<&[u8]>| line.map(|l| String::from_utf8_lossy(l).trim_end_matches('\n').to_owned());
    for place in 0.. {
        let (x, y) = (a.next(), b.next());
        if x != y {
            return Some(Difference { place, ours: text(x), theirs: text(y) });
        }
    }
    None
}

impl Program {
    fn start(&self) -> Result<Child, String> {
        let (name, arguments) = self.command.split_first().ok_or("no program to compare with")?;
        Command::new(name)
            .args(arguments)
            .stdin(Stdio::piped())
            .stdout(Stdio::piped())
            .spawn()
            .map_err(|e| format!("{name}: {e}"))
    }

    /// What the program prints for a script; at most `most` bytes of it.
    fn answers(&self, script: Vec<u8>, most: u64) -> Result<Vec<u8>, String> {
        let mut child = self.start()?;
        let mut input = child.stdin.take().expect("piped");
        let output = child.stdout.take().expect("piped");
        // A program that stops reading is seen by what it prints, not here.
        thread::spawn(move || _ = input.write_all(&script));
        let (send, receive) = mpsc::channel();
        thread::spawn(move || {
            let mut printed = Vec::new();
            let read = output.take(most).read_to_end(&mut printed);
            _ = send.send(read.map(|_| printed));
        });
        let printed = receive.recv_timeout(PATIENCE);
        if printed.as_ref().is_ok_and(|p| p.as_ref().is_ok_and(|p| (p.len() as u64) < most)) {
            _ = child.wait();
        } else {
            _ = child.kill();
            _ = child.wait();
        }
        match printed {
            Ok(printed) => printed.map_err(|e| format!("{}: {e}", self.command[0])),
            Err(_) => Err(format!("{} took more than {} s over one piece", self.command[0], PATIENCE.as_secs())),
        }
    }

    fn difference(&self, piece: &Piece) -> Result<Option<Difference>, String> {
        let most = piece.answers.len() as u64 + 4096;
        let theirs = self.answers(piece.script(), most)?;
        Ok(first_difference(&piece.answers, &theirs))
    }

    /// Cuts a script that shows a difference down to the smallest that this finds.
    fn cut_down(&self, piece: Piece, first: &Difference) -> Result<Piece, String> {
        let mut lines = piece.lines[..=piece.line_of_answer(first.place)].to_vec();
        lines.retain(|line| !passed_over(line));
        let small = self.leave_out(lines)?;
        // Setting the state up with the lines that print it may be shorter than bringing it about.
        for last in (1..small.len()).rev().take(40) {
            let mut set_up = state_after(&small[..last]);
            set_up.extend_from_slice(&small[last..]);
            if self.difference(&Piece::of(set_up.clone()))?.is_some() {
                let other = self.leave_out(set_up)?;
                if other.len() < small.len() {
                    return Ok(Piece::of(other));
                }
            }
        }
        Ok(Piece::of(small))
    }

    /// Parts of a script are left out, ever smaller ones, as long as some difference is left.
    fn leave_out(&self, mut lines: Vec<Vec<u8>>) -> Result<Vec<Vec<u8>>, String> {
        let mut size = (lines.len() / 2).max(1);
        loop {
            let (mut at, mut smaller) = (0, false);
            while at < lines.len() {
                let until = (at + size).min(lines.len());
                let mut fewer = lines[..at].to_vec();
                fewer.extend_from_slice(&lines[until..]);
                if self.difference(&Piece::of(fewer.clone()))?.is_some() {
                    (lines, smaller) = (fewer, true);
                } else {
                    at = until;
                }
            }
            if size == 1 && !smaller {
                return Ok(lines);
            }
            size = (size / 2).max(1);
        }
    }
}

/// The `put_` lines that set up the state after some lines.
fn state_after(lines: &[Vec<u8>]) -> Vec<Vec<u8>> {
    let (mut world, mut out) = (World::default(), Answer::default());
    for line in lines {
        dispatch::line(&mut world, line, &mut out);
    }
    out.text.clear();
    tables(&world, &mut out);
    let printed = out.text.split(|&b| b == b'\n').map(<[u8]>::to_vec);
    printed.filter(|line| line.starts_with(b"put_")).collect()
}

/// What a run has compared.
#[derive(Default)]
pub struct Tally {
    pub calls: u64,
    pub answers: u64,
    /// How many calls ran on the Rust's own microseconds.
    pub in_micros: u64,
    /// How many calls were refused, by number; 0 stands for `bad`.
    pub refused: [u64; 12],
}

impl Tally {
    fn count(&mut self, answer: &[u8]) {
        self.answers += answer.iter().filter(|&&b| b == b'\n').count() as u64;
        if answer.starts_with(b"bad") {
            self.refused[0] += 1;
        } else if let Some(number) = answer.strip_prefix(b"refuse ") {
            let number = String::from_utf8_lossy(number);
            if let Some(count) = number.trim().parse::<usize>().ok().and_then(|n| self.refused.get_mut(n)) {
                *count += 1;
            }
        }
    }

    /// The counts in one line.
    pub fn refusals(&self) -> String {
        let mut text = format!("bad {}", self.refused[0]);
        for (number, count) in self.refused.iter().enumerate().skip(1).filter(|&(_, &count)| count > 0) {
            text.push_str(&format!(", refuse {number}: {count}"));
        }
        text
    }
}

fn piece(profile: Profile, seed: u64, calls: u64, tally: &mut Tally) -> Piece {
    let mut piece = Piece::default();
    let mut generator = Generator::new(profile, seed);
    generator.script(calls, |line, answer| {
        piece.lines.push(line.to_vec());
        piece.answers.extend_from_slice(answer);
        tally.count(answer);
    });
    tally.calls += calls;
    tally.in_micros += generator.in_micros;
    piece
}

/// Compares over `calls` calls, the profiles in turn. True if no answer differs; what happened is printed.
pub fn run(program: &Program, seed: u64, calls: u64, profiles: &[Profile]) -> Result<bool, String> {
    let (start, mut tally, mut seeds) = (Instant::now(), Tally::default(), Random::new(seed));
    let mut pieces = 0;
    while tally.calls < calls {
        let profile = profiles[pieces % profiles.len()];
        let share = PIECE.min(calls / profiles.len() as u64 + 1).min(calls - tally.calls);
        let piece_seed = seeds.draw();
        let piece = piece(profile, piece_seed, share, &mut tally);
        pieces += 1;
        if let Some(found) = program.difference(&piece)? {
            say!(
                "difference in profile {}, script: oracle gen {} {piece_seed} {share}",
                profile.name(),
                profile.name()
            );
            report(program, piece, &found)?;
            return Ok(false);
        }
    }
    let seconds = start.elapsed().as_secs_f64();
    say!(
        "compared {} calls ({} answer lines) in {pieces} pieces, seed {seed}: 0 differences, {seconds:.1} s, {:.0} calls a minute",
        tally.calls,
        tally.answers,
        tally.calls as f64 * 60.0 / seconds
    );
    say!("of these {} in the Rust's own microseconds; {}", tally.in_micros, tally.refusals());
    Ok(true)
}

/// Compares on one script that is given. True if no answer differs.
pub fn run_script(program: &Program, script: &[u8]) -> Result<bool, String> {
    let body = script.strip_suffix(b"\n").unwrap_or(script);
    let lines: Vec<Vec<u8>> = body.split(|&b| b == b'\n').map(<[u8]>::to_vec).collect();
    let piece = Piece::of(lines);
    let Some(found) = program.difference(&piece)? else {
        say!("compared {} calls: 0 differences", piece.calls());
        return Ok(true);
    };
    report(program, piece, &found)?;
    Ok(false)
}

/// Prints the first difference, and the smallest script found that shows one.
fn report(program: &Program, piece: Piece, found: &Difference) -> Result<(), String> {
    let line = piece.line_of_answer(found.place);
    say!("first difference, at script line {}: {}", line + 1, piece.lines[line].escape_ascii());
    let side = |answer: &Option<String>| answer.clone().unwrap_or_else(|| "(no line)".to_owned());
    say!("  the Rust:    {}", side(&found.ours));
    say!("  the program: {}", side(&found.theirs));
    let small = program.cut_down(piece, found)?;
    say!("smallest script found, {} lines:", small.lines.len());
    for line in &small.lines {
        say!("{}", line.escape_ascii());
    }
    if let Some(left) = program.difference(&small)? {
        say!("its first difference, at its line {}:", small.line_of_answer(left.place) + 1);
        say!("  the Rust:    {}", side(&left.ours));
        say!("  the program: {}", side(&left.theirs));
    }
    Ok(())
}
