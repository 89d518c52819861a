//! Runs random scripts through the oracle and another program, and cuts a disagreement down.
use std::time::{Duration, Instant};

use crate::generate::{self, join, Script};
use crate::oracle;
use crate::program::Program;

const CALLS_PER_SCRIPT: u64 = 1_000;
const SHRINKING_TIME: Duration = Duration::from_secs(60);

/// Compares so many calls; true if all agree. Stops at the first disagreement.
pub fn run(calls: u64, seed: u64, without: &[&str], program: &Program) -> bool {
    let mut passed = 0;
    for at in 0.. {
        if passed >= calls {
            break;
        }
        let script = generate::script(seed + at, CALLS_PER_SCRIPT.min(calls - passed) as usize, without);
        let (output, ended_badly) = program.run(&script.text());
        match first_difference(&script, &output) {
            None if ended_badly.is_none() => passed += script.lines.len() as u64,
            difference => {
                let until = difference.map_or(script.lines.len(), |at| at + 1);
                passed += until as u64 - 1;
                println!("seed {}: the answers differ at line {until}", seed + at);
                show(&shrink(&script.lines[..until], program), program);
                println!("{passed} passed, 1 failed");
                return false;
            }
        }
    }
    println!("{passed} passed, 0 failed");
    true
}

/// The first call whose answer is not the oracle's.
fn first_difference(script: &Script, output: &[u8]) -> Option<usize> {
    let mut rest = output;
    for (at, answer) in script.answers.iter().enumerate() {
        match rest.strip_prefix(&answer[..]) {
            Some(after) => rest = after,
            None => return Some(at),
        }
    }
    (!rest.is_empty()).then_some(script.answers.len() - 1)
}

fn differs(lines: &[Vec<u8>], program: &Program) -> bool {
    let script = join(lines);
    let (output, ended_badly) = program.run(&script);
    ended_badly.is_some() || Program::Oracle.run(&script).0 != output
}

/// Takes lines away, then makes fields shorter, for as long as the two still differ.
fn shrink(lines: &[Vec<u8>], program: &Program) -> Vec<Vec<u8>> {
    let until = Instant::now() + SHRINKING_TIME;
    let mut lines = lines.to_vec();
    // Most often the last session alone shows it.
    if let Some(start) = lines.iter().rposition(|line| line.starts_with(b"start ")) {
        if differs(&lines[start..], program) {
            lines.drain(..start);
        }
    }
    let mut size = lines.len() / 2;
    while size > 0 {
        let mut at = 0;
        while at < lines.len() && Instant::now() < until {
            let mut fewer = lines.clone();
            fewer.drain(at..(at + size).min(lines.len()));
            if differs(&fewer, program) {
                lines = fewer;
            } else {
                at += size;
            }
        }
        size /= 2;
    }
    for at in 0..lines.len() {
        let fields = lines[at].split(|b| *b == b' ').count();
        for field in 1..fields {
            for simple in [&b"0"[..], b"1", b"-", b"aa"] {
                let mut simpler = lines.clone();
                simpler[at] = with_field(&lines[at], field, simple);
                if simpler[at].len() < lines[at].len() && Instant::now() < until && differs(&simpler, program) {
                    lines = simpler;
                    break;
                }
            }
        }
    }
    lines
}

fn with_field(line: &[u8], at: usize, field: &[u8]) -> Vec<u8> {
    let mut fields: Vec<&[u8]> = line.split(|b| *b == b' ').collect();
    fields[at] = field;
    fields.join(&b' ')
}

/// Prints a disagreement and keeps it beside the program for another look.
fn show(lines: &[Vec<u8>], program: &Program) {
    let script = join(lines);
    let (output, ended_badly) = program.run(&script);
    let (expected, _) = Program::Oracle.run(&script);
    for (at, line) in lines.iter().enumerate() {
        match lines.len() {
            // A limit of hundreds needs hundreds of calls; they are in the file.
            count if count > 40 && at == 10 => println!("> ... ({} lines)", count - 30),
            count if count > 40 && (11..count - 20).contains(&at) => {}
            _ => println!("> {}", cut(line)),
        }
    }
    let (ours, theirs): (Vec<_>, Vec<_>) = (oracle::lines(&expected).collect(), oracle::lines(&output).collect());
    let same = ours.iter().zip(&theirs).take_while(|(a, b)| a == b).count();
    println!("the first {same} lines of the answers are the same, then");
    for (who, lines) in [("the Rust", &ours), ("the program", &theirs)] {
        let next: Vec<String> = lines.iter().skip(same).take(4).map(|line| cut(line)).collect();
        println!("  {who}: {}", next.join(" | "));
    }
    if let Some(how) = ended_badly {
        println!("  the program ended with {how}");
    }
    let kept = std::env::current_exe().expect("this program has a path").with_file_name("disagreement.in");
    match std::fs::write(&kept, script) {
        Ok(()) => println!("kept in {}", kept.display()),
        Err(error) => println!("{}: {error}", kept.display()),
    }
}

fn cut(line: &[u8]) -> String {
    let text = String::from_utf8_lossy(&line[..line.len().min(160)]);
    format!("{text}{}", if line.len() > 160 { "..." } else { "" })
}
