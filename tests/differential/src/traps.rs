//! The transcripts of TRAPS.md: calls after `> `, answers indented.
use crate::program::{answers, Program};

struct Step {
    /// One call, or one for each N of a range, of which only the last answer is shown.
    calls: Vec<String>,
    answer: Vec<String>,
}

struct Transcript {
    name: String,
    steps: Vec<Step>,
}

/// Runs every transcript; true if all pass.
pub fn run(text: &str, program: &Program) -> bool {
    let transcripts = read(text);
    let mut failed = 0;
    for transcript in &transcripts {
        if let Err(why) = transcript.check(program) {
            failed += 1;
            println!("{}: {why}", transcript.name);
        }
    }
    println!("{} passed, {failed} failed", transcripts.len() - failed);
    failed == 0 && !transcripts.is_empty()
}

/// The calls of all transcripts as one script, for a stored run.
pub fn script(text: &str) -> String {
    let steps = read(text).into_iter().flat_map(|transcript| transcript.steps);
    steps.flat_map(|step| step.calls).map(|call| call + "\n").collect()
}

fn read(text: &str) -> Vec<Transcript> {
    let mut transcripts = Vec::new();
    let mut item = "";
    let mut inside: Option<Vec<Step>> = None;
    for line in text.lines() {
        match &mut inside {
            _ if line == "```" => match inside.take() {
                None => inside = Some(Vec::new()),
                Some(steps) => transcripts.push(Transcript { name: format!("item {item}"), steps }),
            },
            None => {
                let number = line.split(". ").next().unwrap_or_default();
                if !number.is_empty() && number.bytes().all(|b| b.is_ascii_digit()) {
                    item = number;
                }
            }
            Some(steps) => match line.strip_prefix("> ") {
                Some(call) => steps.push(Step { calls: expand(call), answer: Vec::new() }),
                None => steps.last_mut().expect("a call comes first").answer.push(line.trim_start().into()),
            },
        }
    }
    transcripts
}

/// Writes out a call that is shown for a range of N, or with its body cut off.
fn expand(call: &str) -> Vec<String> {
    if let Some((call, range)) = call.split_once("(N from ") {
        let bounds: Vec<u64> = range.split(|c: char| !c.is_ascii_digit()).filter_map(|n| n.parse().ok()).collect();
        let call = call.trim_end();
        return (bounds[0]..=bounds[1]).map(|n| call.replace(" N ", &format!(" {n} "))).collect();
    }
    match call.strip_suffix("...") {
        None => vec![call.into()],
        Some(shown) => {
            // The bodies that are cut off lie at a limit: one byte past it, but for the send, which fills the store.
            let length = match call.split(' ').next() {
                Some("restore" | "command") => 4_097,
                Some("data") => 129,
                Some("accept") => 65_537,
                _ => 65_536,
            };
            let (before, _) = shown.rsplit_once(' ').expect("a body is not the first field");
            vec![format!("{before} {}", "aa".repeat(length))]
        }
    }
}

impl Transcript {
    fn check(&self, program: &Program) -> Result<(), String> {
        let script: String = self.steps.iter().flat_map(|s| &s.calls).map(|call| call.clone() + "\n").collect();
        let (output, ended_badly) = program.run(script.as_bytes());
        if let Some(how) = ended_badly {
            return Err(how);
        }
        let answers = answers(&output);
        let mut done = 0;
        for step in &self.steps {
            done += step.calls.len();
            let got = answers.get(done - 1).map_or(&[][..], Vec::as_slice);
            let got: Vec<String> = got.iter().map(|line| String::from_utf8_lossy(line).into_owned()).collect();
            if !matches(&step.answer, &got) {
                let call: String = step.calls.last().expect("a step has a call").chars().take(80).collect();
                return Err(format!("{call}\n  shown: {:?}\n  got:   {got:?}", step.answer));
            }
        }
        match answers.len() == done {
            true => Ok(()),
            false => Err(format!("{} answers to {done} calls", answers.len())),
        }
    }
}

/// `... (17 lines)` stands for that many lines.
fn matches(shown: &[String], got: &[String]) -> bool {
    match shown {
        [] => got.is_empty(),
        [line, rest @ ..] => match line.strip_prefix("... (").and_then(|l| l.strip_suffix(" lines)")) {
            Some(count) => {
                let count: usize = count.parse().expect("a number of lines");
                got.len() >= count && matches(rest, &got[count..])
            }
            None => got.first() == Some(line) && matches(rest, &got[1..]),
        },
    }
}
