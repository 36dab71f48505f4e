//! The proved programs, one process for each input, and what they print.

use std::fs::{self, File};
use std::io::Write;
use std::path::{Path, PathBuf};
use std::process::{Command, Stdio};

/// Input up to this goes through a pipe, which holds it whole; more goes through a file.
const PIPED: usize = 60_000;

pub struct Program {
    path: PathBuf,
}

impl Program {
    /// The program at an environment variable's path, else at its place in the repository.
    pub fn find(variable: &str, place: &str) -> Result<Program, String> {
        let path = std::env::var_os(variable).map_or_else(|| PathBuf::from(place), PathBuf::from);
        if path.is_file() {
            Ok(Program { path })
        } else {
            Err(format!("no program {}", path.display()))
        }
    }

    /// All that the program prints on an input, none of it on standard error; `spool` is a file to
    /// use for the input.
    pub fn output(&self, input: &[u8], spool: &Path) -> Result<Vec<u8>, String> {
        self.run(input, spool).map_err(|error| format!("{}: {error}", self.path.display()))
    }

    fn run(&self, input: &[u8], spool: &Path) -> Result<Vec<u8>, String> {
        let mut command = Command::new(&self.path);
        command.stdout(Stdio::piped()).stderr(Stdio::piped());
        if input.len() <= PIPED {
            command.stdin(Stdio::piped());
        } else {
            fs::write(spool, input).map_err(|error| error.to_string())?;
            command.stdin(File::open(spool).map_err(|error| error.to_string())?);
        }
        let mut child = command.spawn().map_err(|error| error.to_string())?;
        if let Some(mut pipe) = child.stdin.take() {
            // a program that ends early is seen by what it prints
            let _ = pipe.write_all(input);
        }
        let output = child.wait_with_output().map_err(|error| error.to_string())?;
        if !output.stderr.is_empty() {
            return Err(format!("standard error: {}", String::from_utf8_lossy(&output.stderr)));
        }
        if output.status.success() {
            Ok(output.stdout)
        } else {
            Err(output.status.to_string())
        }
    }
}

/// What a list's calls must print: the lines of each, and the most that its scratch line may say.
pub struct Expected {
    pub text: String,
    pub scratch: u64,
}

/// Holds the output of `replay` against what is expected of each call.
pub fn compare(output: &[u8], expected: &[Expected]) -> Result<(), String> {
    let output = String::from_utf8_lossy(output);
    let mut lines = output.lines();
    for (place, call) in expected.iter().enumerate() {
        for line in call.text.lines() {
            let got = lines.next().unwrap_or("the output's end");
            if got != line {
                return Err(format!("call {place}: {}", difference(line, got)));
            }
        }
        let got = lines.next().unwrap_or("the output's end");
        let changed = got.strip_prefix("scratch ").and_then(|changed| changed.parse::<u64>().ok());
        if changed.is_none_or(|changed| changed > call.scratch) {
            let most = call.scratch;
            return Err(format!("call {place}: expected: scratch, at most {most}\n  got: {got}"));
        }
    }
    match lines.next() {
        None if output.ends_with('\n') || output.is_empty() => Ok(()),
        None => Err("the last line has no end".into()),
        Some(line) => Err(format!("more than expected: {line}")),
    }
}

/// Two lines that differ, whole if short, else around the first word that differs.
pub fn difference(expected: &str, got: &str) -> String {
    if expected.len().max(got.len()) <= 300 {
        return format!("expected: {expected}\n  got: {got}");
    }
    let (mut ours, mut theirs) = (expected.split(' '), got.split(' '));
    let mut word = 0;
    loop {
        let (one, other) = (ours.next(), theirs.next());
        if one != other {
            return format!("word {word}: expected: {one:?}\n  got: {other:?}");
        }
        if one.is_none() {
            return "no difference".into();
        }
        word += 1;
    }
}
