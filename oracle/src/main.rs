//! The oracle's commands.

use std::io::{self, BufReader, Read, Write};
use std::process::ExitCode;

use oracle::answer::Answer;
use oracle::compare::{self, Program};
use oracle::generate::Generator;
use oracle::planted::{FAULTS, Fault, Faulty};
use oracle::profile::{PROFILES, Profile};
use oracle::world::World;
use oracle::{dispatch, edges, script};

const USAGE: &str = "usage:
  oracle rust < script > answers             the Rust's answers to a script
  oracle gen PROFILE SEED CALLS > script     a random script
  oracle edges > script                      every call and every refusal at its edge
  oracle compare SEED CALLS [PROFILE,..] -- PROGRAM [ARGUMENT..]
                                             both sides on random scripts; stops at the first difference
  oracle same -- PROGRAM [ARGUMENT..] < script
                                             both sides on one script
  oracle faulty FAULT < script > answers     the oracle with a planted fault, to try a comparison on";

fn main() -> ExitCode {
    let arguments: Vec<String> = std::env::args().skip(1).collect();
    match command(&arguments) {
        Ok(true) => ExitCode::SUCCESS,
        Ok(false) => ExitCode::from(1),
        Err(why) => {
            eprintln!("oracle: {why}");
            ExitCode::from(2)
        }
    }
}

/// True if all went well and nothing differs.
fn command(arguments: &[String]) -> Result<bool, String> {
    let words: Vec<&str> = arguments.iter().map(String::as_str).collect();
    match words.as_slice() {
        ["rust"] => {
            let mut world = World::default();
            answer(|line, out| dispatch::line(&mut world, line, out))
        }
        ["faulty", name] => {
            let fault = Fault::named(name).ok_or_else(|| unknown("fault", name, &FAULTS.map(|(n, _)| n)))?;
            let mut faulty = Faulty::new(fault);
            answer(|line, out| faulty.line(line, out))
        }
        ["edges"] => finished(io::stdout().write_all(edges::script().as_bytes())),
        ["gen", profile, seed, calls] => generate(named(profile)?, number(seed)?, number(calls)?),
        ["compare", seed, calls, rest @ ..] => {
            let (profiles, program) = match rest {
                ["--", program @ ..] => (PROFILES.map(|(_, profile)| profile).to_vec(), program),
                [names, "--", program @ ..] => (names.split(',').map(named).collect::<Result<_, _>>()?, program),
                _ => return Err(USAGE.to_owned()),
            };
            compare::run(&to_run(program), number(seed)?, number(calls)?, &profiles)
        }
        ["same", "--", program @ ..] => {
            let mut script = Vec::new();
            io::stdin().lock().read_to_end(&mut script).map_err(|e| format!("the script: {e}"))?;
            compare::run_script(&to_run(program), &script)
        }
        _ => Err(USAGE.to_owned()),
    }
}

fn to_run(program: &[&str]) -> Program {
    Program { command: program.iter().map(|&part| part.to_owned()).collect() }
}

fn unknown(kind: &str, name: &str, all: &[&str]) -> String {
    format!("there is no {kind} '{name}'; there are: {}", all.join(", "))
}

fn named(name: &str) -> Result<Profile, String> {
    Profile::named(name).ok_or_else(|| unknown("profile", name, &PROFILES.map(|(n, _)| n)))
}

fn number(text: &str) -> Result<u64, String> {
    text.parse().map_err(|_| format!("'{text}' is no number from 0 to {}", u64::MAX))
}

fn answer(line: impl FnMut(&[u8], &mut Answer)) -> Result<bool, String> {
    finished(script::run(line, BufReader::new(io::stdin().lock()), io::stdout().lock()))
}

fn generate(profile: Profile, seed: u64, calls: u64) -> Result<bool, String> {
    let (mut to, mut done) = (io::BufWriter::new(io::stdout().lock()), Ok(()));
    Generator::new(profile, seed).script(calls, |line, _| {
        if done.is_ok() {
            done = to.write_all(line).and_then(|()| to.write_all(b"\n"));
        }
    });
    finished(done.and_then(|()| to.flush()))
}

/// A reader that went away, as `head` does, is no fault.
fn finished(done: io::Result<()>) -> Result<bool, String> {
    match done {
        Err(e) if e.kind() != io::ErrorKind::BrokenPipe => Err(e.to_string()),
        _ => Ok(true),
    }
}
