//! The same as deck.c but for the power cuts, in Rust: a counter and a controller over a line that loses, repeats and reorders frames, and a closing round.
mod link;
use link::{Answer, Link, Reliable, AVAILABLE};

const BODIES: u64 = 400;
const LONGEST: u64 = 120;
const MOST_ON_LINE: usize = 500;

struct Random(u64);
impl Random {
    fn any(&mut self, below: u64) -> u64 {
        self.0 = self.0.wrapping_mul(6364136223846793005).wrapping_add(1442695040888963407);
        (self.0 >> 33) % below
    }
    fn chance(&mut self, percent: u64) -> bool {
        self.any(100) < percent
    }
}

#[derive(Clone)]
enum Frame {
    Data(u64, Vec<u8>),
    Ack(u64),
}

/// What is under way to one end.
struct Line {
    frames: Vec<Frame>,
    loss: u64,
}
impl Line {
    fn put(&mut self, random: &mut Random, frame: Frame) {
        if random.chance(self.loss) {
            return;
        }
        for _ in 0..if self.loss > 0 && random.chance(15) { 2 } else { 1 } {
            if self.frames.len() < MOST_ON_LINE {
                self.frames.push(frame.clone());
            }
        }
    }
    fn take(&mut self, random: &mut Random) -> Option<Frame> {
        match self.frames.len() as u64 {
            0 => None,
            _ if self.loss == 0 => Some(self.frames.remove(0)),
            n => Some(self.frames.remove(random.any(n) as usize)),
        }
    }
}

fn body(who: u64, number: u64) -> Vec<u8> {
    (0..number * 31 % LONGEST).map(|k| (number + 3 * k + 100 * who) as u8).collect()
}

struct End {
    who: u64,
    link: Link,
    out: Line,
    asked_to_commit: bool,
    sent: u64,
    got: u64,
    wrong: u64,
    acknowledged: u64,
    time: f64,
}

impl End {
    fn new(who: u64, loss: u64) -> End {
        let link = Link::start(1, Reliable { message_number: 1, remote_number: 0, disposition: 0 }, &[], b"no");
        End { who, link, out: Line { frames: Vec::new(), loss }, asked_to_commit: false, sent: 0, got: 0, wrong: 0, acknowledged: 0, time: 0.0 }
    }

    /// What the last call listed, in the order of the list.
    fn act(&mut self, random: &mut Random, answer: Answer) {
        for [code, number, start, length] in self.link.events(answer) {
            match code {
                1 => self.asked_to_commit = true,
                2 => {
                    self.got += 1;
                    let came = &self.link.delivery[start as usize..][..length as usize];
                    if number != self.got || came != body(1 - self.who, number) {
                        self.wrong += 1;
                    }
                }
                3 => self.acknowledged = self.acknowledged.max(number),
                8 | 9 => {
                    let accepted = self.out.loss == 0 || !random.chance(10);
                    if accepted {
                        let body = &self.link.outbound[start as usize..][..length as usize];
                        let frame = if code == 8 { Frame::Data(number, body.to_vec()) } else { Frame::Ack(number) };
                        self.out.put(random, frame);
                    }
                    let answer = self.link.report(code - 8, number, accepted);
                    self.asked_to_commit |= answer.events > 0;
                }
                10 => self.out.put(random, Frame::Ack(number)),
                _ => {}
            }
        }
    }
    fn commit(&mut self, random: &mut Random, saved: bool) {
        let record = self.link.prepare();
        // here a host writes the record, the session and the stores to its storage
        self.asked_to_commit = false;
        let answer = self.link.complete(record, saved);
        self.act(random, answer);
    }
    fn send_next(&mut self, random: &mut Random) {
        let answer = self.link.send(&body(self.who, self.sent + 1));
        if answer.refusal == 23 {
            return; // wait for acks
        }
        self.sent += 1;
        if answer.value != self.sent || self.link.fetch(self.sent) != Some(&body(self.who, self.sent)[..]) {
            self.wrong += 1;
        }
        self.act(random, answer);
    }
    fn receive(&mut self, random: &mut Random, frame: Frame) {
        let answer = match frame {
            Frame::Data(number, body) => self.link.data(AVAILABLE, number, 0, &body),
            Frame::Ack(number) => self.link.ack(number),
        };
        self.act(random, answer);
    }
    fn replay(&mut self, random: &mut Random, force: bool) {
        self.time += 400.0;
        let answer = self.link.connectivity(5, self.time, force);
        self.act(random, answer);
    }
}

fn day(seed: u64, loss: u64) -> u64 {
    let mut random = Random(seed);
    let random = &mut random;
    let mut ends = [End::new(0, loss), End::new(1, loss)];
    while ends.iter().any(|e| e.sent < BODIES) {
        let at = random.any(2) as usize;
        match random.any(8) {
            0 | 1 if ends[at].sent < BODIES => ends[at].send_next(random),
            2 if ends[at].asked_to_commit => {
                let saved = !random.chance(10);
                ends[at].commit(random, saved)
            }
            3 if random.chance(30) => ends[at].replay(random, false),
            4..=7 => {
                if let Some(frame) = ends[1 - at].out.take(random) {
                    ends[at].receive(random, frame)
                }
            }
            _ => {}
        }
    }
    // the closing round, for each direction: what is still on the line is lost
    for sender in 0..2 {
        let receiver = 1 - sender;
        ends[sender].out.loss = 0;
        ends[receiver].out.loss = 0;
        ends[sender].commit(random, true);
        ends[receiver].commit(random, true);
        ends[sender].out.frames.clear();
        ends[receiver].out.frames.clear();
        ends[sender].replay(random, true);
        while let Some(frame) = ends[sender].out.take(random) {
            ends[receiver].receive(random, frame);
        }
        ends[receiver].commit(random, true);
        while let Some(frame) = ends[receiver].out.take(random) {
            ends[sender].receive(random, frame);
        }
    }
    let mut failed = 0;
    for e in &ends {
        let found = [
            ("every body came", e.got == BODIES),
            ("each once, in order and whole", e.wrong == 0),
            ("nothing is left to acknowledge", (1..=BODIES).all(|n| e.link.fetch(n).is_none())),
            ("the last is acknowledged", e.acknowledged == BODIES),
        ];
        for (what, good) in found {
            if !good {
                failed += 1;
                println!("FAILED deck: seed {seed}, loss {loss}: {what}");
            }
        }
    }
    failed
}

fn main() {
    assert_eq!(std::mem::size_of::<link::Session>(), 18400);
    let failed: u64 = (1..=6).map(|seed| day(seed, seed % 4 * 15)).sum();
    println!("deck in Rust: {} passed, {failed} failed", 6 * 8 - failed);
    std::process::exit(i32::from(failed > 0));
}
