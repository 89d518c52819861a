//! Which answers and events random scripts bring about.
use std::collections::{BTreeMap, BTreeSet};

use crate::generate::{self, join, HELD};
use crate::oracle::Oracle;

/// A call's word, and one thing seen in its answer.
type Kind = (String, String);

/// Every refusal that a call can give while its buffers are long enough.
const REFUSALS: [(&str, &[u8]); 13] = [
    ("start", &[2, 3]),
    ("send", &[21, 22, 23]),
    ("data", &[2, 4, 5, 6, 9, 21, 22, 24, 25, 26]),
    ("ack", &[7, 22]),
    ("ready", &[2, 22]),
    ("accept", &[22, 23, 29, 30]),
    ("reject", &[21, 22, 23]),
    ("prepare_channel", &[37, 38]),
    ("command", &[10, 21, 22, 23, 32, 33, 34, 35, 36]),
    ("complete", &[8]),
    ("connectivity", &[2]),
    ("report", &[2, 27]),
    ("restore", &[2, 3, 10, 28, 31]),
];

/// Every event code that a call can list. `ready` lists no code 10: no call queues a number up to remote.
const EVENTS: [(&str, &[u8]); 10] = [
    ("send", &[1]),
    ("data", &[1, 2, 7, 10]),
    ("ack", &[1, 3, 4, 7]),
    ("keepalive", &[5, 9]),
    ("ready", &[1, 2]),
    ("reject", &[1]),
    ("command", &[1]),
    ("complete", &[6, 8, 9]),
    ("connectivity", &[8]),
    ("report", &[1]),
];

/// Not refusals of the call: `ready` goes on, and lists them.
const READY_FAILURES: [&str; 2] = ["code 7 by 9", "code 7 by 21"];

/// What an answer shows.
fn kinds(line: &[u8], answer: &[u8]) -> Vec<Kind> {
    let text = String::from_utf8_lossy(answer);
    let mut lines = text.lines();
    let fields: Vec<&str> = lines.next().unwrap_or_default().split(' ').collect();
    let word = String::from_utf8_lossy(line.split(|b| *b == b' ').next().unwrap_or_default()).into_owned();
    let shown = match fields[..] {
        ["?", _] => return vec![("no call".into(), "?".into())],
        ["state", ..] => return vec![(word, "done".into())],
        [_, "!", refusal, _] => format!("! {refusal}"),
        ["connectivity" | "retire", answer, _] => format!("answer {answer}"),
        ["fetch", "none"] => "none".into(),
        _ => "done".into(),
    };
    let mut kinds = vec![(word.clone(), shown)];
    for event in lines {
        let words: Vec<&str> = event.split(' ').take(2).collect();
        let code = match words[..] {
            ["7", refusal] => format!("code 7 by {refusal}"),
            _ => format!("code {}", words[0]),
        };
        kinds.push((word.clone(), code));
    }
    kinds
}

/// A script of short sessions, each of which shows something that those before it do not.
pub fn covering_script(scripts: u64, longest_session: usize) -> Vec<u8> {
    let mut seen = BTreeSet::new();
    let mut chosen = Vec::new();
    for seed in 0..scripts {
        let lines = generate::script(seed, 1_000, &[]).lines;
        for session in lines.chunk_by(|_, next| !next.starts_with(b"start ")) {
            let mut oracle = Oracle::default();
            let shown: BTreeSet<Kind> = session
                .iter()
                .flat_map(|line| {
                    let mut answer = Vec::new();
                    oracle.answer(line, &mut answer);
                    kinds(line, &answer)
                })
                .collect();
            let text = join(session);
            if text.len() <= longest_session && !shown.is_subset(&seen) {
                seen.extend(shown);
                chosen.extend(text);
            }
        }
    }
    chosen
}

#[derive(Default)]
struct Table {
    counts: BTreeMap<Kind, u64>,
    longest: BTreeMap<String, usize>,
    most: [usize; 6],
}

/// Prints the table of so many calls; true if nothing that can be reached is missing.
pub fn run(calls: u64, seed: u64) -> bool {
    let mut table = Table::default();
    let mut done = 0;
    for at in 0.. {
        if done >= calls {
            break;
        }
        let script = generate::script(seed + at, 1_000.min(calls - done) as usize, &[]);
        for ((line, answer), mode) in script.lines.iter().zip(&script.answers).zip(&script.modes) {
            table.count(line, answer, *mode);
        }
        table.most = std::array::from_fn(|at| table.most[at].max(script.most[at]));
        done += script.lines.len() as u64;
    }
    table.print();
    let missing = table.missing();
    for what in &missing {
        println!("never seen: {what}");
    }
    println!("{done} calls, {} kinds of answers and events missing", missing.len());
    missing.is_empty()
}

impl Table {
    fn count(&mut self, line: &[u8], answer: &[u8], mode: u8) {
        let kinds = kinds(line, answer);
        let word = kinds[0].0.clone();
        let longest = self.longest.entry(word.clone()).or_default();
        *longest = (kinds.len() - 1).max(*longest);
        for kind in kinds.into_iter().chain([(word, format!("mode {mode}"))]) {
            *self.counts.entry(kind).or_default() += 1;
        }
    }

    fn print(&self) {
        for (word, longest) in &self.longest {
            println!("{word} (at most {longest} events)");
            let of_word = || self.counts.iter().filter(|((w, _), _)| w == word).map(|((_, what), n)| (what, n));
            let (codes, rest): (Vec<_>, Vec<_>) = of_word().partition(|(what, _)| what.starts_with("code"));
            let (modes, answers): (Vec<_>, Vec<_>) = rest.into_iter().partition(|(what, _)| what.starts_with("mode"));
            for group in [answers, codes, modes].iter().filter(|group| !group.is_empty()) {
                let cells: Vec<String> = group.iter().map(|(what, n)| format!("{what}: {n}")).collect();
                println!("  {}", cells.join(", "));
            }
        }
        let most: Vec<String> = HELD.iter().zip(self.most).map(|(what, most)| format!("{what} {most}")).collect();
        println!("most held: {}", most.join(", "));
    }

    fn missing(&self) -> Vec<String> {
        let mut wanted: Vec<(&str, String)> = Vec::new();
        for (word, refusals) in REFUSALS {
            wanted.extend(refusals.iter().map(|refusal| (word, format!("! {refusal}"))));
        }
        for (word, codes) in EVENTS {
            wanted.extend(codes.iter().map(|code| (word, format!("code {code}"))));
        }
        wanted.extend(READY_FAILURES.map(|failure| ("ready", failure.into())));
        for word in ["data", "ack", "ready"] {
            wanted.extend((0..5).map(|mode| (word, format!("mode {mode}"))));
        }
        let is_seen = |word: &str, what: &str| {
            // Codes 7 are counted by their refusal.
            let same = |seen: &str| seen == what || what == "code 7" && seen.starts_with("code 7 by");
            self.counts.keys().any(|(w, seen)| w == word && same(seen))
        };
        let unseen = wanted.iter().filter(|(word, what)| !is_seen(word, what));
        let mut missing: Vec<String> = unseen.map(|(word, what)| format!("{word}: {what}")).collect();
        for (at, full) in [256, 65_536, 256, 32_768, 512, 512].into_iter().enumerate() {
            if self.most[at] < full {
                missing.push(format!("{full} {}", HELD[at]));
            }
        }
        missing
    }
}
