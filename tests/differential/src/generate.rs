//! Random call scripts that aim at limits. The generator answers its own calls with the oracle
//! while it writes them, so that it knows the state it aims at.
use std::collections::VecDeque;

use crate::oracle::Oracle;
use crate::random::Random;
use crate::starts::{COMMIT, RESTORE};
use crate::view::Summary;

/// What a session is mostly about. Each kind still makes every call now and then.
#[derive(Clone, Copy, PartialEq)]
pub(crate) enum Subject {
    Mixed,
    ManySends,
    LargeBodies,
    LongQueue,
    ManyWaiting,
    ManyRetries,
    LastMessageNumbers,
    LastRemoteNumbers,
    LastGenerations,
    Handoffs,
    Proposals,
    Restores,
    BrokenLines,
}
use Subject::*;

#[derive(Clone, Copy)]
pub(crate) enum Word {
    Send,
    Data,
    Ack,
    Keepalive,
    Ready,
    Accept,
    Reject,
    PrepareChannel,
    Command,
    Prepare,
    Complete,
    Connectivity,
    Report,
    Fetch,
    Retire,
    Restore,
    Broken,
    Poke,
}
use Word::*;

/// A script with the answers of the oracle, call by call, and how far it went.
pub struct Script {
    pub lines: Vec<Vec<u8>>,
    pub answers: Vec<Vec<u8>>,
    /// The mode that each call met.
    pub modes: Vec<u8>,
    /// The most that was ever held, in the order of `HELD`.
    pub most: [usize; 6],
}

pub const HELD: [&str; 6] = ["unacked", "unacked bytes", "queued", "queued bytes", "waiting acks", "retry acks"];

impl Script {
    pub fn text(&self) -> Vec<u8> {
        join(&self.lines)
    }
}

pub fn join(lines: &[Vec<u8>]) -> Vec<u8> {
    lines.iter().flat_map(|line| line.iter().copied().chain([b'\n'])).collect()
}

/// At least so many calls, up to the end of a session, with no line that begins with one of the words `without`.
pub fn script(seed: u64, calls: usize, without: &[&str]) -> Script {
    let mut generator = Generator {
        random: Random::new(seed),
        oracle: Oracle::default(),
        subject: Mixed,
        left: 0,
        planned: VecDeque::new(),
        records: Vec::new(),
    };
    let mut script = Script { lines: Vec::new(), answers: Vec::new(), modes: Vec::new(), most: [0; 6] };
    while script.lines.len() < calls || generator.left > 0 || !generator.planned.is_empty() {
        let line = generator.line().into_bytes();
        if without.iter().any(|word| line.split(|b| *b == b' ').next() == Some(word.as_bytes())) {
            continue;
        }
        let met = generator.oracle.link.as_ref().map(|link| link.session.summary());
        script.modes.push(met.as_ref().map_or(0, |s| s.mode));
        if let Some(s) = met {
            let held = [s.unacked.len(), s.unacked_bytes, s.queue, s.queue_bytes, s.waiting, s.retry];
            script.most = std::array::from_fn(|at| script.most[at].max(held[at]));
        }
        let mut answer = Vec::new();
        generator.oracle.answer(&line, &mut answer);
        generator.note(&answer);
        script.lines.push(line);
        script.answers.push(answer);
    }
    script
}

pub(crate) struct Generator {
    pub(crate) random: Random,
    pub(crate) oracle: Oracle,
    pub(crate) subject: Subject,
    /// How many calls this session still gets.
    pub(crate) left: u64,
    /// Lines decided already.
    pub(crate) planned: VecDeque<String>,
    /// What the prepares of this session returned.
    pub(crate) records: Vec<String>,
}

impl Generator {
    fn line(&mut self) -> String {
        match self.planned.pop_front() {
            Some(line) if line == COMMIT => return self.full_commit(),
            Some(line) if line == RESTORE => return self.early_restore(),
            Some(line) => return line,
            None => {}
        }
        if self.left == 0 {
            return self.start();
        }
        self.left -= 1;
        let Some(link) = &self.oracle.link else {
            // Before any session nothing is a call.
            return self.random.pick(&["state", "send aa", "prepare", "keepalive", "fetch 1"]).into();
        };
        let s = link.session.summary();
        let large = s.unacked_bytes + s.queue_bytes > 2_000 || s.waiting + s.retry + s.unacked.len() > 300;
        if self.left == 0 || self.random.below(100) < if large { 2 } else { 22 } {
            return "state".into();
        }
        self.call(&s)
    }

    fn note(&mut self, answer: &[u8]) {
        if let Some(record) = answer.strip_prefix(b"prepare ") {
            self.records.push(String::from_utf8_lossy(record.trim_ascii_end()).into());
        }
    }

    fn call(&mut self, s: &Summary) -> String {
        let rare = |word| if self.subject == word { 6 } else { 0 };
        let (handoffs, proposals, restores) = (rare(Handoffs), rare(Proposals), rare(Restores));
        let broken = if self.subject == BrokenLines { 60 } else { 1 };
        let poke = if self.subject == LastGenerations { 4 } else { 0 };
        let word = self.random.weighted(&[
            (14, Send),
            (24 + 3 * proposals, Data),
            (12 + handoffs, Ack),
            (2, Keepalive),
            (3 + 2 * proposals, Ready),
            (1 + proposals, Accept),
            (2 + proposals, Reject),
            (1 + proposals, PrepareChannel),
            (2 + 3 * handoffs, Command),
            (4, Prepare),
            (8, Complete),
            (6, Connectivity),
            (14 + handoffs, Report),
            (4, Fetch),
            (1, Retire),
            (1 + 4 * restores + handoffs / 3, Restore),
            (broken, Broken),
            (poke, Poke),
        ]);
        self.make(word, s)
    }

    pub(crate) fn make(&mut self, word: Word, s: &Summary) -> String {
        match word {
            Send => format!("send {}", self.outbound_body(s)),
            Data => self.data(s),
            Ack => format!("ack {}", self.own_number(s)),
            Keepalive => "keepalive".into(),
            Ready => format!("ready {} {}", self.status(), self.mode()),
            Accept => {
                format!("accept {} {} {}", self.terms(), self.random.below(2), self.short_body())
            }
            Reject => "reject".into(),
            PrepareChannel => format!("prepare_channel {} {}", self.terms(), self.random.below(2)),
            Command => self.command(s),
            Prepare => "prepare".into(),
            Complete => self.complete(s),
            Connectivity => self.connectivity(s),
            Report => {
                let what = self.code(1);
                let number = match what {
                    0 => self.own_number(s),
                    _ => self.peer_number(s),
                };
                format!("report {what} {number} {}", self.random.below(2))
            }
            Fetch => format!("fetch {}", self.own_number(s)),
            Retire => {
                // Half of the retired sessions end soon, so that most calls meet one that is not.
                self.left = self.left.min(if self.random.chance(50) { 12 } else { 60 });
                format!("retire {}", self.random.below(2))
            }
            Restore => self.restore(s),
            Broken => self.broken(s),
            // Never below the generation that is there: no call can do that.
            Poke => {
                let to = self.random.pick(&[4_294_966_000, 4_294_966_000, 4_294_965_744, 4_294_967_294]);
                let to = self.random.near(to).min(u32::MAX.into());
                format!("poke generation {}", to.max(s.generation.into()))
            }
        }
    }
}
