//! How a random session starts, and the calls that bring it to a limit.
use crate::generate::Generator;
use crate::generate::Subject::{self, *};

const SUBJECTS: [(u64, Subject); 13] = [
    (30, Mixed),
    (6, ManySends),
    (4, LargeBodies),
    (5, LongQueue),
    (3, ManyWaiting),
    (2, ManyRetries),
    (10, LastMessageNumbers),
    (8, LastRemoteNumbers),
    (8, LastGenerations),
    (30, Handoffs),
    (30, Proposals),
    (12, Restores),
    (8, BrokenLines),
];

const CLASSES: [[u64; 4]; 4] =
    [[8, 8, 1_024, 128], [64, 64, 8_192, 512], [256, 256, 32_768, 4_096], [256, 256, 32_768, 16_384]];

// Planned calls whose numbers are known only when their turn comes.
pub(crate) const COMMIT: &str = "(complete)";
pub(crate) const RESTORE: &str = "(restore)";

impl Generator {
    pub(crate) fn start(&mut self) -> String {
        let r = &mut self.random;
        self.records.clear();
        if r.chance(4) && self.oracle.link.is_none() {
            self.left = 3;
            return "state".into();
        }
        self.subject = r.weighted(&SUBJECTS);
        self.left = r.between(20, 160);
        let mut message_number = r.weighted(&[(12, 1), (2, 2), (2, 5), (1, 300)]);
        let mut remote = r.weighted(&[(12, 0), (1, 1), (2, 4), (1, 1 << 32)]);
        let mut policy = if r.chance(50) { r.pick(&CLASSES) } else { self.odd_policy() };
        let r = &mut self.random;
        let mut disposition = r.weighted(&[(8, 0), (2, 1), (1, 2), (1, 3), (4, 4)]);
        match self.subject {
            LastMessageNumbers => {
                message_number = r.between(4_294_967_293, 4_294_967_296);
                remote = r.pick(&[0, 0, 4]);
            }
            LastRemoteNumbers => remote = r.between(u64::MAX - 6, u64::MAX - 1),
            LongQueue | ManyWaiting => policy = [r.between(254, 300), 256, 32_768, r.pick(&[128, 16_384])],
            Proposals => {
                remote = r.weighted(&[(5, 0), (1, 3)]);
                message_number = r.weighted(&[(8, 1), (3, 5), (3, 4_294_967_296)]);
                disposition = r.weighted(&[(4, 0), (1, 2), (1, 3), (4, 4)]);
            }
            Handoffs | Restores => remote = 0,
            _ => {}
        }
        let reject = self.short_body_of_at_least_one();
        let unacked = match self.subject {
            // Numbers used up and no room either: 21 comes first.
            LastMessageNumbers if self.random.chance(20) => many_unacked(256),
            _ => self.unacked(message_number),
        };
        let mut line = format!(
            "start {message_number} {remote} {disposition} {} {} {} {} {reject} {unacked}",
            policy[0], policy[1], policy[2], policy[3]
        );
        if self.random.chance(8) {
            line = self.bad_start(message_number, remote, disposition, policy, &reject, &unacked);
        }
        self.plan(message_number, remote);
        line
    }

    fn odd_policy(&mut self) -> [u64; 4] {
        let r = &mut self.random;
        [
            r.weighted(&[(4, 8), (2, 2), (1, 0), (1, 300), (1, u64::MAX), (1, 1 << 63)]),
            r.pick(&[0, 1, 2, 3, 8, 255, 256]),
            r.pick(&[0, 3, 10, 40, 32_767, 32_768]),
            r.pick(&[0, 1, 2, 8, 128, 16_384]),
        ]
    }

    /// Start records at and past the limits of refusals 2 and 3.
    fn bad_start(&mut self, mn: u64, remote: u64, disp: u64, p: [u64; 4], reject: &str, unacked: &str) -> String {
        let policy = format!("{} {} {} {}", p[0], p[1], p[2], p[3]);
        let [gap, messages, bytes, body] = p;
        let r = &mut self.random;
        match r.below(12) {
            0 => format!("start {} {remote} {disp} {policy} {reject} 0", r.pick(&[0, 4_294_967_297, u64::MAX])),
            1 => format!("start {mn} {} {disp} {policy} {reject} {unacked}", u64::MAX),
            2 => format!("start {mn} {remote} {} {policy} {reject} {unacked}", r.pick(&[5, 6, u64::MAX])),
            3 => format!("start {mn} {remote} {disp} {gap} 257 {bytes} {body} {reject} {unacked}"),
            4 => format!("start {mn} {remote} {disp} {gap} {messages} 32769 {body} {reject} {unacked}"),
            5 => format!("start {mn} {remote} {disp} {gap} {messages} {bytes} 16385 {reject} {unacked}"),
            6 => format!("start {mn} {remote} {disp} {policy} - {unacked}"),
            7 => format!("start {mn} {remote} {disp} {policy} {} {unacked}", self.bytes(65)),
            8 => format!("start {mn} {remote} {disp} {policy} {} {unacked}", self.bytes(64)),
            9 => format!("start 258 {remote} {disp} {policy} {reject} {}", many_unacked(r.between(255, 257))),
            _ => format!("start {mn} {remote} {disp} {policy} {reject} {}", self.bad_unacked(mn)),
        }
    }

    /// A record's messages: rising numbers below the message number.
    pub(crate) fn unacked(&mut self, message_number: u64) -> String {
        let most = (message_number - 1).min(self.random.weighted(&[(6, 0), (3, 3), (1, 12)]));
        let mut number = message_number - 1 - most;
        let count = if most == 0 { 0 } else { self.random.between(1, most) };
        let mut text = count.to_string();
        for at in 0..count {
            number = self.random.between(number + 1, message_number - (count - at));
            text += &format!(" {number} {}", self.short_body());
        }
        text
    }

    pub(crate) fn bad_unacked(&mut self, message_number: u64) -> String {
        let last = message_number.saturating_sub(1).max(1);
        match self.random.below(7) {
            0 => "1 0 aa".into(),
            1 => format!("1 {message_number} aa"),
            2 => format!("2 {last} aa {last} bb"),
            3 => format!("2 {last} aa {} bb", last - 1),
            4 => format!("1 {} -", self.random.edge()),
            5 => {
                // One message too many, or not, and the same with a byte below.
                let count = self.random.between(255, 257);
                many_unacked(count)
            }
            _ => {
                let room = self.random.between(65_535, 65_537) as usize;
                format!("2 1 {} 2 aa", self.bytes(room - 1))
            }
        }
    }

    /// The calls that bring a fresh session to a limit.
    fn plan(&mut self, message_number: u64, remote: u64) {
        match self.subject {
            ManySends => self.plan_many_sends(message_number),
            LargeBodies => self.plan_large_bodies(message_number),
            LongQueue => self.plan_long_queue(remote),
            ManyWaiting => self.plan_many_waiting(remote),
            ManyRetries => {
                for n in 0..self.random.between(510, 514) {
                    self.plan_line(format!("report 1 {} 0", remote + 2 * n));
                }
                self.plan_line("keepalive".into());
                self.left = 60;
            }
            // Only a session that has done nothing yet takes a restore.
            Handoffs | Restores if self.random.chance(60) => {
                for _ in 0..self.random.between(1, 4) {
                    self.plan_line(RESTORE.into());
                }
            }
            Proposals if self.random.chance(30) => {
                let (first, mode) = (self.random.weighted(&[(3, 1), (1, 0)]), self.random.pick(&[1, 3]));
                self.plan_line(format!("data 0 1 {first} aa"));
                let status = self.random.below(2);
                self.plan_line(format!("ready {status} {mode}"));
            }
            Proposals if self.random.chance(4) => {
                let proposal = self.bytes(65_537);
                self.plan_line(format!("accept 7 1 {proposal}"));
            }
            LastGenerations => {
                for _ in 0..self.random.below(6) {
                    self.plan_send();
                }
                let near = self.random.between(4_294_965_998, 4_294_966_000);
                self.plan_line(format!("poke generation {near}"));
            }
            _ => {}
        }
    }

    fn plan_line(&mut self, line: String) {
        self.planned.push_back(line);
    }

    fn plan_send(&mut self) {
        let body = self.short_body();
        self.plan_line(format!("send {body}"));
    }

    fn plan_many_sends(&mut self, message_number: u64) {
        for _ in 0..self.random.between(250, 258) {
            self.plan_send();
        }
        if self.random.chance(60) {
            self.plan_line(COMMIT.into());
            if self.random.chance(60) {
                self.plan_reports(message_number, message_number + 255);
            }
        }
        self.left = 80;
    }

    fn plan_large_bodies(&mut self, message_number: u64) {
        let length = self.random.pick(&[16_384, 21_845, 32_768, 60_000, 65_535, 65_536]);
        for _ in 0..65_536 / length {
            let body = self.bytes(length);
            self.plan_line(format!("send {body}"));
        }
        if self.random.chance(50) {
            self.plan_line(COMMIT.into());
            self.plan_reports(message_number, message_number);
        }
        self.left = 25;
    }

    /// All that a queue takes, in any order, and then what sets it free.
    fn plan_long_queue(&mut self, remote: u64) {
        let mut numbers: Vec<u64> = (2..=self.random.between(254, 258)).map(|n| remote + n).collect();
        for at in (1..numbers.len()).rev() {
            numbers.swap(at, self.random.below(at as u64 + 1) as usize);
        }
        let length = self.random.pick(&[0, 1, 127, 128, 128]);
        for number in numbers {
            let (status, kind, body) = (self.random.below(2), self.random.below(3), self.bytes(length));
            self.plan_line(format!("data {status} {number} {kind} {body}"));
        }
        match self.random.below(3) {
            0 => self.plan_line(format!("data 1 {} 0 aa", remote + 1)),
            1 => {
                self.plan_line(format!("data 0 {} 0 aa", remote + 1));
                let mode = self.random.pick(&[0, 3, 4]);
                self.plan_line(format!("ready 1 {mode}"));
            }
            _ => {}
        }
        self.left = 80;
    }

    /// Waiting acks and queued messages together come to 512.
    fn plan_many_waiting(&mut self, remote: u64) {
        let queued = self.random.pick(&[0, 0, 100, 255, 256]);
        let waiting = 512 - queued;
        for n in 1..=waiting {
            self.plan_line(format!("data 1 {} 0 -", remote + n));
        }
        for n in 0..queued {
            self.plan_line(format!("data 0 {} 0 -", remote + waiting + 2 + n));
        }
        if queued == 0 && self.random.chance(50) {
            // Records that nobody prepared: 20 are acked, ten of them then count as not released.
            self.plan_line(format!("complete 2 0 {} 0", remote + 20));
            self.plan_line(format!("complete 3 0 {} 0", remote + 10));
            for n in (513..=532).chain([15, 10, 11, 512]) {
                self.plan_line(format!("data 1 {} 0 -", remote + n));
            }
        }
        for n in [0, 1, queued + 1, queued + 2] {
            self.plan_line(format!("data 1 {} 0 -", remote + waiting + n));
        }
        if self.random.chance(50) {
            for _ in 0..256 {
                self.plan_line("send aa".into());
            }
            self.plan_line(COMMIT.into());
        }
        self.left = 60;
    }

    /// The completion of what a prepare would return now.
    pub(crate) fn full_commit(&mut self) -> String {
        match &self.oracle.link {
            Some(link) => {
                let s = link.session.summary();
                format!("complete {} {} {} 1", s.generation, s.message_number - 1, s.remote)
            }
            None => "prepare".into(),
        }
    }

    pub(crate) fn early_restore(&mut self) -> String {
        match &self.oracle.link {
            Some(link) => {
                let s = link.session.summary();
                self.restore(&s)
            }
            None => "prepare".into(),
        }
    }

    fn plan_reports(&mut self, from: u64, to: u64) {
        for number in from..=to {
            self.plan_line(format!("report 0 {number} 1"));
        }
    }
}

/// A record's messages: so many empty ones.
fn many_unacked(count: u64) -> String {
    let held: String = (1..=count).map(|n| format!(" {n} -")).collect();
    format!("{count}{held}")
}
