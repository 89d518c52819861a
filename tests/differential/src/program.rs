//! Whoever answers a script: the oracle in this process, or another program.
use std::fs::{self, File};
use std::path::{Path, PathBuf};
use std::process::{Command, Stdio};

use crate::oracle;

pub enum Program {
    Oracle,
    Other(PathBuf),
}

impl Program {
    pub fn named(path: Option<&str>) -> Self {
        path.map_or(Program::Oracle, |path| Program::Other(path.into()))
    }

    /// The output for a script, with what made the program end badly, if anything did.
    pub fn run(&self, script: &[u8]) -> (Vec<u8>, Option<String>) {
        match self {
            Program::Oracle => {
                let mut answers = Vec::new();
                oracle::answer_all(script, &mut answers).expect("memory takes every byte");
                (answers, None)
            }
            Program::Other(path) => run_other(path, script),
        }
    }
}

fn run_other(path: &Path, script: &[u8]) -> (Vec<u8>, Option<String>) {
    // A file and no pipe as input: neither side can wait for the other.
    let input = std::env::temp_dir().join(format!("differential-{}.in", std::process::id()));
    fs::write(&input, script).expect("the input can be written");
    let output = File::open(&input)
        .and_then(|file| Command::new(path).stdin(file).stderr(Stdio::inherit()).output())
        .unwrap_or_else(|error| panic!("{}: {error}", path.display()));
    fs::remove_file(&input).expect("the input can be removed");
    let ended_badly = (!output.status.success()).then(|| output.status.to_string());
    (output.stdout, ended_badly)
}

/// The output cut into answers: the first line of each tells how many follow.
pub fn answers(output: &[u8]) -> Vec<Vec<&[u8]>> {
    let mut lines = oracle::lines(output);
    let mut answers = Vec::new();
    while let Some(first) = lines.next() {
        let more = match first.split(|b| *b == b' ').next().unwrap_or_default() {
            b"state" => 6,
            b"prepare" | b"fetch" | b"?" => 0,
            _ => first.rsplit(|b| *b == b' ').next().and_then(crate::script::number).unwrap_or(0) as usize,
        };
        let mut answer = vec![first];
        answer.extend(lines.by_ref().take(more));
        answers.push(answer);
    }
    answers
}

/// A file beside one of the folders above this program.
pub fn find_upward(name: &str) -> Option<PathBuf> {
    let here = std::env::current_exe().ok()?;
    here.ancestors().map(|folder| folder.join(name)).find(|path| path.exists())
}
