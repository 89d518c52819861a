//! Random calls with arguments near the limits of the state that they meet.
use crate::generate::Generator;
use crate::generate::Subject::*;
use crate::generate::Word::*;
use crate::script::write_hex;
use crate::view::Summary;

impl Generator {
    pub(crate) fn data(&mut self, s: &Summary) -> String {
        let number = self.data_number(s);
        let kind = match self.subject {
            Proposals => self.random.weighted(&[(3, 0), (4, 1), (2, 2)]),
            _ => self.code(2),
        };
        let body = self.inbound_body(s);
        format!("data {} {number} {kind} {body}", self.status())
    }

    fn data_number(&mut self, s: &Summary) -> u64 {
        let next = s.remote.wrapping_add(1);
        match self.random.below(40) {
            0..=13 => next,
            14..=22 => next.wrapping_add(self.random.between(1, 4)),
            23..=28 => s.remote.saturating_sub(self.random.below(4)),
            29..=31 => self.random.near(next.wrapping_add(s.gap)),
            32 => self.random.near(s.released_remote),
            33..=35 => self.random.near(s.last_queued.unwrap_or(next)),
            36 => self.random.edge(),
            37 => u64::MAX - self.random.below(2),
            _ => 1,
        }
    }

    /// A number of this end's messages.
    pub(crate) fn own_number(&mut self, s: &Summary) -> u64 {
        let last = s.message_number - 1;
        match self.random.below(20) {
            0..=11 if !s.unacked.is_empty() => self.random.pick(&s.unacked),
            0..=13 => last,
            14..=15 => s.handoff.as_ref().map_or(last, |handoff| handoff.msgno),
            16..=17 => self.random.near(last),
            18 => self.random.below(last.saturating_add(2)),
            _ => self.random.edge(),
        }
    }

    /// A number of the other end's messages.
    pub(crate) fn peer_number(&mut self, s: &Summary) -> u64 {
        match self.random.below(10) {
            0..=4 => s.remote.saturating_sub(self.random.below(5)),
            5..=6 => s.first_retry.unwrap_or(0),
            7 => self.random.near(s.remote),
            8 => self.random.between(1_000, 2_000),
            _ => self.random.edge(),
        }
    }

    pub(crate) fn command(&mut self, s: &Summary) -> String {
        let restoring = self.random.below(2);
        if self.random.chance(15) {
            return format!("command {restoring} 0 0 -");
        }
        match &s.handoff {
            Some(handoff) if self.random.chance(60) => {
                let mut body = Vec::new();
                write_hex(&handoff.message, &mut body);
                format!("command {restoring} 1 {} {}", handoff.id, String::from_utf8_lossy(&body))
            }
            _ => format!("command {restoring} 1 {} {}", self.id(), self.handoff_body()),
        }
    }

    pub(crate) fn complete(&mut self, s: &Summary) -> String {
        let persisted = self.random.below(2);
        match self.random.below(20) {
            0..=6 if !self.records.is_empty() => {
                let at = self.random.below(self.records.len() as u64) as usize;
                format!("complete {} {persisted}", self.records[at])
            }
            0..=14 => format!("complete {} {} {} {persisted}", s.generation, s.message_number - 1, s.remote),
            15..=17 => {
                let r = &mut self.random;
                let generation = r.pick(&[s.generation, s.released, s.generation, 1]);
                let generation = r.near(generation.into()).min(u32::MAX.into());
                format!("complete {generation} {} {} {persisted}", r.near(s.message_number), r.near(s.remote))
            }
            18 => {
                let r = &mut self.random;
                let generation = r.pick(&[0, s.generation.saturating_add(1), s.generation.saturating_add(9)]);
                format!("complete {generation} {} {} {persisted}", r.edge(), r.edge())
            }
            _ => {
                let (outbound, remote) = self.random.pick(&[
                    (u64::MAX, 0),
                    (0, u64::MAX),
                    (u64::MAX - 1, u64::MAX - 1),
                    (u64::MAX, u64::MAX),
                ]);
                format!("complete {} {outbound} {remote} {persisted}", self.random.pick(&[0, s.generation]))
            }
        }
    }

    pub(crate) fn connectivity(&mut self, s: &Summary) -> String {
        let event = self.random.weighted(&[(5, 4), (5, 5), (1, 1), (1, 2), (1, 3), (1, 0), (1, 6), (1, u64::MAX)]);
        let now = match self.random.below(10) {
            0..=4 => {
                let since = [0.0, 999.0, 999.999_999, 1000.0, 1000.000_001, 1001.0, -1000.0, 5000.0];
                s.last_replay + self.random.pick(&since)
            }
            5 => self.random.pick(&[0.0, -0.0, 1000.0, 999.0, 1e300, -1e300, f64::MAX, f64::MIN, 5e-324]),
            6 => self.random.pick(&[f64::INFINITY, f64::NEG_INFINITY]),
            // Sums round up to here: the subtraction and the sum disagree.
            7 => self.random.pick(&[9_007_199_254_740_992.0, 9_007_199_254_741_992.0, 9_007_199_254_741_991.0]),
            8 => f64::from_bits(self.random.pick(&[0x7ff8 << 48, 0xfff8 << 48, 0x7ff0_0000_0000_0001, u64::MAX])),
            _ => f64::from_bits(self.random.next()),
        };
        format!("connectivity {event} {:016x} {}", now.to_bits(), self.random.weighted(&[(3, 0), (1, 1)]))
    }

    pub(crate) fn restore(&mut self, s: &Summary) -> String {
        let r = &mut self.random;
        let message_number = r.weighted(&[(6, 1), (2, 2), (2, 4), (1, 4_294_967_296), (1, 0), (1, 4_294_967_297)]);
        let remote = r.weighted(&[(6, 0), (2, 3), (1, u64::MAX - 1), (1, u64::MAX)]);
        let disposition = r.weighted(&[(6, 0), (1, 1), (1, 2), (1, 3), (2, 4), (1, 5)]);
        let unacked = match message_number {
            1..=4_294_967_296 if self.random.chance(85) => self.unacked(message_number),
            _ => self.bad_unacked(message_number),
        };
        let handoff = match &s.handoff {
            Some(h) if self.random.chance(50) => {
                let mut body = Vec::new();
                write_hex(&h.message, &mut body);
                let (sent, acknowledged) = (h.sent as u8, h.acknowledged as u8);
                format!("1 {} {} {sent} {acknowledged} {}", h.id, h.msgno, String::from_utf8_lossy(&body))
            }
            _ if self.random.chance(40) => "0".into(),
            _ => {
                let number = self.random.weighted(&[(6, 1), (2, 2), (1, 3), (1, u64::MAX)]);
                let (sent, acknowledged) = (self.random.below(2), self.random.below(2));
                format!("1 {} {number} {sent} {acknowledged} {}", self.id(), self.handoff_body())
            }
        };
        format!("restore {message_number} {remote} {disposition} {unacked} {handoff}")
    }

    /// A line that is no call, or a call written unusually.
    pub(crate) fn broken(&mut self, s: &Summary) -> String {
        let word = self.random.pick(&[
            Send,
            Data,
            Ack,
            Ready,
            Accept,
            Command,
            Complete,
            Connectivity,
            Report,
            Restore,
            Fetch,
        ]);
        let good = self.make(word, s);
        let space = good.find(' ').expect("the call has a field");
        match self.random.below(16) {
            0 => good.replacen(' ', "  ", 1),
            1 => good + " ",
            2 => good + " 0",
            3 => good + "\r",
            4 => " ".to_string() + &good,
            5 => good[..good.rfind(' ').expect("the call has a field")].into(),
            6 => good[..space].into(),
            7 => good.to_uppercase(),
            8 => format!("{}x{}", &good[..space], &good[space..]),
            9 => self
                .random
                .pick(&["", " ", "-", "?", "start", "poke", "poke generation", "poke generation 4294967296", "states"])
                .into(),
            10 => format!(
                "ack {}",
                self.random.pick(&["-1", "+1", "18446744073709551616", "99999999999999999999", "1.0", "0x1", ""])
            ),
            11 => format!("{} 000{}", self.random.pick(&["ack", "fetch", "report 0 1"]), self.random.below(2)),
            12 => format!(
                "data {} 1 0 {}",
                self.random.between(6, 9),
                self.random.pick(&["a", "AA", "aa", "a-", "--", ""])
            ),
            13 => {
                format!("complete {} 0 0 {}", self.random.between(4_294_967_294, 4_294_967_297), self.random.below(3))
            }
            14 => format!(
                "command {} 0 {} {}",
                self.random.below(2),
                self.random.below(2),
                self.random.pick(&["-", "aa"])
            ),
            _ if self.random.below(20) == 0 => {
                let word = self.random.pick(&["ack ", "fetch ", "send "]);
                let length = self.random.between(299_999, 300_001) as usize;
                format!("{word}{}", "0".repeat(length - word.len()))
            }
            _ => format!(
                "connectivity 5 {} 0",
                self.random.pick(&["0", "000000000000000", "00000000000000000", "7FF8000000000000"])
            ),
        }
    }

    pub(crate) fn status(&mut self) -> u64 {
        self.random.weighted(&[(12, 1), (6, 0), (1, 2), (1, 3), (1, 4), (1, 5), (1, 6), (1, 7)])
    }

    pub(crate) fn mode(&mut self) -> u64 {
        match self.subject {
            Proposals => self.random.weighted(&[(2, 0), (10, 1), (1, 2), (5, 3), (1, 4)]),
            _ => self.random.weighted(&[(12, 0), (2, 1), (2, 2), (2, 3), (2, 4), (1, 5), (1, u64::MAX)]),
        }
    }

    /// A code from 0 to its last one, now and then outside its list.
    pub(crate) fn code(&mut self, last: u64) -> u64 {
        match self.random.below(40) {
            0 => self.random.pick(&[last + 1, last + 2, u64::MAX]),
            _ if last == 2 && self.random.chance(50) => 0,
            _ => self.random.below(last + 1),
        }
    }

    pub(crate) fn terms(&mut self) -> u64 {
        self.random.pick(&[0, 1, 7, u32::MAX.into()])
    }

    /// Few ids and bodies, so that two handoffs are often equal.
    fn id(&mut self) -> u64 {
        self.random.pick(&[1, 1, 1, 2, 0, u64::MAX])
    }

    fn handoff_body(&mut self) -> String {
        match self.random.below(40) {
            0 => self.bytes(4_096),
            1 => self.bytes(4_097),
            n => ["aa", "aa", "aa", "bb", "-"][n as usize % 5].into(),
        }
    }

    pub(crate) fn outbound_body(&mut self, s: &Summary) -> String {
        let room = 65_536usize.saturating_sub(s.unacked_bytes);
        match self.random.below(40) {
            0..=3 if self.subject == LargeBodies || room < 200 => {
                let length = room + self.random.below(3) as usize;
                self.bytes(length.saturating_sub(1))
            }
            4 if self.subject == LargeBodies => self.bytes(room / 2),
            5 => {
                let length = self.random.below(300) as usize;
                self.bytes(length)
            }
            _ => self.short_body(),
        }
    }

    fn inbound_body(&mut self, s: &Summary) -> String {
        let room = s.policy_bytes.saturating_sub(s.queue_bytes);
        let length = match self.random.below(24) {
            0 if s.policy_body <= 512 || self.random.chance(20) => {
                self.random.near(s.policy_body as u64 + 2).saturating_sub(2) as usize
            }
            1 | 2 if room <= 512 || self.random.chance(20) => {
                self.random.near(room as u64 + 2).saturating_sub(2) as usize
            }
            3 => self.random.below(200) as usize,
            _ => (self.random.below(4) as usize).min(s.policy_body),
        };
        self.bytes(length.min(s.policy_body + 2))
    }

    pub(crate) fn short_body(&mut self) -> String {
        let length = self.random.weighted(&[(1, 0), (4, 1), (2, 2), (1, 5)]);
        self.bytes(length)
    }

    pub(crate) fn short_body_of_at_least_one(&mut self) -> String {
        let length = self.random.between(1, 3) as usize;
        self.bytes(length)
    }

    /// So many bytes, all different enough to show a body in the wrong place.
    pub(crate) fn bytes(&mut self, length: usize) -> String {
        let mut body = Vec::with_capacity(length + 8);
        while body.len() < length {
            body.extend(self.random.next().to_le_bytes());
        }
        body.truncate(length);
        let mut hex = Vec::new();
        write_hex(&body, &mut hex);
        String::from_utf8(hex).expect("hex is text")
    }
}
