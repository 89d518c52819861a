//! The same call lists through the static library and through the unchanged Rust, in one process, turn by turn, and beside them the floor of each list.
//! bench/run builds and runs it; it prints a table in Markdown.
use std::alloc::{GlobalAlloc, Layout, System};
use std::cell::Cell;
use std::hint::black_box;
use std::time::Instant;

mod link;
#[allow(warnings)]
mod peer_session;

use link::{Given, Link, Reliable, AVAILABLE};
use peer_session::coordination::HostStatus;
use peer_session::session::{Channel, ChannelOutput, PeerEvent, PeerHost, PeerInput, SendFrame, Session};
use peer_session::{Message, ReceivePolicy, ReliableState};

// Stand-ins for the channel types that session.rs names, as in tests/differential.
mod game_session {
    pub struct TerminalHandoffCommand {
        pub id: u64,
        pub message: Vec<u8>,
    }
}
mod session_phases {
    pub mod effects {
        #[allow(dead_code)]
        pub enum GameSessionEvent {
            OutboundMessage(Vec<u8>),
            Other,
        }
    }
}
mod transaction_manager {
    #[derive(Default)]
    pub struct ManagerDrain {
        pub events: std::collections::VecDeque<crate::session_phases::effects::GameSessionEvent>,
    }
}

// ---- the Rust's heap

struct Counting;
static mut NOW: usize = 0;
static mut PEAK: usize = 0;
unsafe impl GlobalAlloc for Counting {
    unsafe fn alloc(&self, layout: Layout) -> *mut u8 {
        NOW += layout.size();
        if NOW > PEAK {
            PEAK = NOW;
        }
        System.alloc(layout)
    }
    unsafe fn dealloc(&self, at: *mut u8, layout: Layout) {
        NOW -= layout.size();
        System.dealloc(at, layout)
    }
}
#[global_allocator]
static ALLOCATOR: Counting = Counting;

// ---- the Rust's host: it takes every frame at once, or none, and looks at every notice

enum NoChannel {}
impl Channel for NoChannel {
    fn status(&self) -> (bool, bool) {
        match *self {}
    }
    fn deliver(&mut self, _: &[u8]) -> Result<ChannelOutput, String> {
        match *self {}
    }
    fn complete_terminal(&mut self) -> Result<ChannelOutput, String> {
        match *self {}
    }
}
struct Host {
    accepts: bool,
    seen: Cell<u64>,
}
impl Host {
    fn see(&self, number: u64) {
        self.seen.set(black_box(self.seen.get() + number));
    }
}
impl PeerHost for Host {
    fn send(&self, frame: SendFrame<'_>) -> Result<bool, String> {
        match frame {
            SendFrame::Data { msgno, body } => self.see(msgno + body.len() as u64),
            SendFrame::Ack { msgno } => self.see(msgno),
        }
        Ok(self.accepts)
    }
    fn status(&self) -> Result<HostStatus, String> {
        Ok(HostStatus { available: true, established: false, discarding: false })
    }
    fn notify(&self, event: PeerEvent) -> Result<(), String> {
        match event {
            PeerEvent::Message { msgno, body } => {
                self.see(msgno + body.len() as u64);
                black_box(&body);
            }
            PeerEvent::Acknowledged { msgno } => self.see(msgno),
            _ => self.see(1),
        }
        Ok(())
    }
}
type Theirs = Session<NoChannel>;
const HOST: Host = Host { accepts: true, seen: Cell::new(0) };
const REFUSING: Host = Host { accepts: false, seen: Cell::new(0) };

fn policy() -> ReceivePolicy {
    // class 3
    ReceivePolicy { max_future_reliable_msgno_gap: 256, max_queued_messages: 256, max_queued_bytes: 32768, max_peer_body_bytes: 16384 }
}
fn their_record(next: u64, messages: &[(u64, &[u8])]) -> ReliableState {
    let unacked_messages = messages.iter().map(|m| Message { msgno: m.0, msg: m.1.to_vec() }).collect();
    ReliableState { session_id: String::new(), message_number: next, remote_number: 0, unacked_messages, disposition: "other".into() }
}
fn their_start(next: u64, messages: &[(u64, &[u8])]) -> Theirs {
    Session::new(their_record(next, messages), policy())
}
fn record(next: u64) -> Reliable {
    Reliable { message_number: next, remote_number: 0, disposition: 0 }
}
fn our_start(next: u64, messages: &[(u64, &[u8])]) -> Link {
    Link::start(3, record(next), messages, b"no")
}

// ---- what both ends do

trait End {
    fn send(&mut self, body: &[u8]);
    /// prepare, complete; and each frame that is listed is reported as accepted
    fn commit(&mut self);
    fn ack(&mut self, number: u64);
    fn data(&mut self, number: u64, body: &[u8]);
    /// prepare and complete, and no report. (The Rust's host has the frames taken at once: there is nothing to report.)
    fn release(&mut self);
    fn prepare(&mut self);
    /// one frame of data reported as accepted; the Rust has no such call
    fn report(&mut self, number: u64);
    /// a forced replay; `reported` has each frame reported as accepted
    fn replay(&mut self, reported: bool);
    fn keepalive(&mut self);
}

impl End for Link {
    fn send(&mut self, body: &[u8]) {
        let a = Link::send(self, body);
        assert!(a.refusal == 0);
        black_box(self.list[0]);
    }
    fn commit(&mut self) {
        let record = Link::prepare(self);
        let a = self.complete(record, true);
        assert!(a.refusal == 0);
        self.report_all(a.events);
    }
    fn release(&mut self) {
        let record = Link::prepare(self);
        assert!(self.complete(record, true).refusal == 0);
    }
    fn prepare(&mut self) {
        black_box(Link::prepare(self));
    }
    fn report(&mut self, number: u64) {
        assert!(Link::report(self, 0, number, true).refusal == 0);
    }
    fn ack(&mut self, number: u64) {
        let a = Link::ack(self, number);
        assert!(a.refusal == 0);
        black_box(self.list[0]);
    }
    fn data(&mut self, number: u64, body: &[u8]) {
        let a = Link::data(self, AVAILABLE, number, 0, body);
        assert!(a.refusal == 0);
        black_box(&self.delivery);
    }
    fn replay(&mut self, reported: bool) {
        let a = self.connectivity(4, 5000.0, true);
        assert!(a.refusal == 0);
        if reported {
            self.report_all(a.events);
        } else {
            black_box(&self.list);
        }
    }
    fn keepalive(&mut self) {
        let a = Link::keepalive(self);
        assert!(a.refusal == 0);
        black_box(&self.list);
    }
}
impl Link {
    /// Each frame that was listed, as accepted. A report lists nothing here, for there is no handoff: the list stays to be read.
    fn report_all(&mut self, events: usize) {
        for i in 0..events {
            let (code, number) = (self.list[4 * i], self.list[4 * i + 1]);
            if code == 8 || code == 9 {
                let a = Link::report(self, code - 8, number, true);
                assert!(a.refusal == 0 && a.events == 0);
            }
        }
    }
}

impl End for Theirs {
    fn send(&mut self, body: &[u8]) {
        self.send_message(body.to_vec(), &HOST).unwrap();
    }
    fn commit(&mut self) {
        let record = self.prepare_commit();
        self.complete_commit(record, true, &HOST).unwrap();
    }
    fn release(&mut self) {
        self.commit();
    }
    fn prepare(&mut self) {
        black_box(self.prepare_commit());
    }
    fn report(&mut self, _: u64) {}
    fn ack(&mut self, number: u64) {
        assert!(self.receive(PeerInput::Ack { msgno: number }, &HOST).unwrap());
    }
    fn data(&mut self, number: u64, body: &[u8]) {
        assert!(self.receive(PeerInput::Data { msgno: number, body: body.to_vec() }, &HOST).unwrap());
    }
    fn replay(&mut self, _: bool) {
        assert!(self.connectivity("registered", 5000.0, true, &HOST).unwrap());
    }
    fn keepalive(&mut self) {
        assert!(self.receive(PeerInput::Keepalive, &REFUSING).unwrap());
    }
}

// ---- rows

struct Row {
    name: String,
    /// calls of the library, and bytes of bodies that it must touch
    calls: usize,
    bytes: usize,
    /// done before the clock starts, and under it
    before: Box<dyn Fn(&mut dyn End)>,
    list: Box<dyn Fn(&mut dyn End)>,
    /// a start is what is measured, or a restore
    start: bool,
    restore: bool,
    /// acks that were not accepted, before
    retries: u64,
    /// the Rust has no such call
    ours_alone: bool,
}

static BODY: [u8; 4096] = [0x5a; 4096];

fn row(name: &str, calls: usize, bytes: usize, before: impl Fn(&mut dyn End) + 'static, list: impl Fn(&mut dyn End) + 'static) -> Row {
    Row { name: name.into(), calls, bytes, before: Box::new(before), list: Box::new(list), start: false, restore: false, retries: 0, ours_alone: false }
}

fn held(count: u64, length: usize) -> impl Fn(&mut dyn End) {
    move |e| {
        for _ in 0..count {
            e.send(&BODY[..length]);
        }
        e.commit();
    }
}

fn rows() -> Vec<Row> {
    let mut rows = Vec::new();
    for length in [16, 256, 4096] {
        rows.push(row(&format!("send, {length} bytes"), 1, length, |_| {}, move |e| e.send(&BODY[..length])));
    }
    rows.push(row("16 sends of 4,096 bytes", 16, 16 * 4096, |_| {}, |e| (0..16).for_each(|_| e.send(&BODY))));
    rows.push(row("prepare and complete, nothing new", 2, 0, |_| {}, |e| e.commit()));
    rows.push(row("prepare, 256 unacked", 1, 0, held(256, 240), |e| e.prepare()));
    let all_unsent = |e: &mut dyn End| {
        (0..256).for_each(|_| e.send(&BODY[..240]));
        e.release();
    };
    let mut report = row("report of one of 256", 1, 0, all_unsent, |e| e.report(128));
    report.ours_alone = true;
    rows.push(report);
    for (length, counts) in [(16, &[1u64, 32, 256][..]), (240, &[1, 32, 256]), (256, &[1, 32, 256]), (4096, &[1, 16])] {
        for &n in counts {
            rows.push(row(
                &format!("cycle: {n} sent, committed, reported, acked; {length} bytes"),
                2 * n as usize + 3,
                n as usize * length,
                |_| {},
                move |e| {
                    held(n, length)(e);
                    e.ack(n);
                },
            ));
        }
    }
    for (length, n) in [(16, 32u64), (16, 255), (240, 255)] {
        rows.push(row(
            &format!("one more sent, committed, reported, the oldest acked, beside {n} unacked; {length} bytes"),
            5,
            n as usize * length,
            held(n, length),
            move |e| {
                e.send(&BODY[..length]);
                e.commit();
                e.ack(1);
            },
        ));
    }
    rows.push(row("an ack that drops 256 of 240 bytes", 1, 0, held(256, 240), |e| e.ack(256)));
    rows.push(row("an ack that drops 128 of 256 of 240 bytes", 1, 128 * 240, held(256, 240), |e| e.ack(128)));
    for length in [16, 4096] {
        rows.push(row(&format!("data in order, {length} bytes"), 1, length, |_| {}, move |e| e.data(1, &BODY[..length])));
    }
    rows.push(row("100 data in order, 16 bytes", 100, 1600, |_| {}, |e| (1..=100).for_each(|n| e.data(n, &BODY[..16]))));
    rows.push(row("256 queued and then message 1, 100 bytes", 257, 257 * 200, |_| {}, |e| {
        (2..=257).for_each(|n| e.data(n, &BODY[..100]));
        e.data(1, &BODY[..100]);
    }));
    rows.push(row("message 1 after 256 queued, that call alone", 1, 257 * 100, |e| (2..=257).for_each(|n| e.data(n, &BODY[..100])), |e| {
        e.data(1, &BODY[..100])
    }));
    rows.push(row("replay of 256 of 240 bytes, each reported", 257, 0, held(256, 240), |e| e.replay(true)));
    rows.push(row("replay of 256 of 240 bytes, the call alone", 1, 0, held(256, 240), |e| e.replay(false)));
    let mut keepalive = row("keepalive with 512 retries", 1, 0, |_| {}, |e| e.keepalive());
    keepalive.retries = 512;
    rows.push(keepalive);
    let mut start = row("start from a record of 256 messages of 240 bytes", 1, 256 * 240 + 32768, |_| {}, |_| {});
    start.start = true;
    rows.push(start);
    let mut restore = row("restore of 256 messages of 240 bytes", 1, 256 * 240, |_| {}, |_| {});
    restore.restore = true;
    rows.push(restore);
    rows
}

// ---- the clock

fn median(mut of: Vec<f64>) -> f64 {
    of.sort_by(|a, b| a.total_cmp(b));
    of[of.len() / 2]
}
fn nanoseconds(run: impl FnOnce()) -> f64 {
    let at = Instant::now();
    run();
    at.elapsed().as_secs_f64() * 1e9
}

const SESSION: usize = std::mem::size_of::<link::Session>();
struct Floor {
    from: Box<[u8; SESSION]>,
    to: Box<[u8; SESSION]>,
    bytes: Vec<u8>,
    other: Vec<u8>,
}
impl Floor {
    /// two copies of the session for each call, and one of the bytes
    fn run(&mut self, calls: usize, bytes: usize) {
        for _ in 0..calls {
            self.to.copy_from_slice(black_box(&self.from[..]));
            black_box(&mut self.to);
            self.from.copy_from_slice(black_box(&self.to[..]));
            black_box(&mut self.from);
        }
        self.other[..bytes].copy_from_slice(black_box(&self.bytes[..bytes]));
        black_box(&mut self.other);
    }
}

fn short(ns: f64) -> String {
    match ns {
        n if n < 9_999.5 => format!("{n:.0} ns"),
        n => format!("{:.1} µs", n / 1000.0),
    }
}

/// What the rounds gave: the library, the Rust, the floor, and each round's ratios.
#[derive(Default)]
struct Times {
    ours: Vec<f64>,
    theirs: Vec<f64>,
    floor: Vec<f64>,
    to_theirs: Vec<f64>,
    to_floor: Vec<f64>,
}

fn measure(row: &Row, rounds: usize, floor: &mut Floor) -> Times {
    let messages: Vec<(u64, &[u8])> = (1..=256).map(|n| (n, &BODY[..240])).collect();
    let numbers: Vec<u64> = (1..=256).collect();
    let (lengths, bodies) = (vec![240u64; 256], vec![0x5au8; 256 * 240]);
    let mut times = Times::default();
    for round in 0..rounds + 5 {
        let mut link = our_start(1, &[]);
        let mut session = their_start(1, &[]);
        for n in 1..=row.retries {
            assert!(link.report(1, n, false).refusal == 0);
        }
        if row.retries > 0 {
            // the Rust's retries: acks of data that the line did not take
            for n in 1..=row.retries {
                session.data(n, &[]);
            }
            let commit = session.prepare_commit();
            session.complete_commit(commit, true, &REFUSING).unwrap();
        }
        (row.before)(&mut link);
        (row.before)(&mut session);
        let (a, b);
        if row.restore {
            let none = Given { present: false, id: 0, number: 0, sent: false, acknowledged: false };
            a = nanoseconds(|| assert!(link.restore(record(300), &numbers, &lengths, &bodies, none, &[]).refusal == 0));
            b = nanoseconds(|| session.restore(their_record(300, &messages), None).unwrap());
        } else if row.start {
            // into the buffers that are there, as a device has them
            a = nanoseconds(|| assert!(link.start_again(3, record(300), &numbers, &lengths, &bodies, b"no").refusal == 0));
            let mut made = None;
            b = nanoseconds(|| made = Some(black_box(their_start(300, &messages))));
            drop(made);
        } else {
            a = nanoseconds(|| (row.list)(&mut link));
            b = nanoseconds(|| (row.list)(&mut session));
        }
        let c = nanoseconds(|| floor.run(row.calls, row.bytes));
        if round < 5 {
            continue; // warm
        }
        times.ours.push(a);
        times.theirs.push(b);
        times.floor.push(c);
        times.to_theirs.push(a / b);
        times.to_floor.push(a / c);
    }
    times
}

fn print(row: &Row, times: Times) {
    let (theirs, to_theirs) = match row.ours_alone {
        true => ("none".into(), "".into()),
        false => (short(median(times.theirs)), format!("{:.2}", median(times.to_theirs))),
    };
    let (ours, floor, to_floor) = (short(median(times.ours)), short(median(times.floor)), median(times.to_floor));
    println!("| {} | {} | {ours} | {theirs} | {to_theirs} | {floor} | {to_floor:.2} |", row.name, row.calls);
}

fn main() {
    let rounds: usize = std::env::args().nth(1).and_then(|n| n.parse().ok()).unwrap_or(301);
    let mut floor = Floor { from: Box::new([1; SESSION]), to: Box::new([2; SESSION]), bytes: vec![1; 1 << 18], other: vec![2; 1 << 18] };
    let (single, lists): (Vec<Row>, Vec<Row>) = rows().into_iter().partition(|row| row.calls == 1);
    for (name, rows) in [("Single calls", single), ("Lists of calls", lists)] {
        println!("## {name}\n");
        println!("| list | calls | library | Rust | library / Rust | floor | library / floor |");
        println!("|---|---|---|---|---|---|---|");
        for row in rows {
            let times = measure(&row, rounds, &mut floor);
            print(&row, times);
        }
        println!();
    }
    let clock = (0..rounds).map(|_| nanoseconds(|| {})).collect();
    println!("An empty list takes {} by this clock; every figure has that in it.\n", short(median(clock)));
    println!("## Memory\n");
    println!("| state | library: session and both stores | Rust: peak of the heap, with its struct |");
    println!("|---|---|---|");
    let fixed = SESSION + link::OUTBOUND_BYTES + link::QUEUE_BYTES;
    for (name, list) in [
        ("fresh", Box::new(|_: &mut dyn End| {}) as Box<dyn Fn(&mut dyn End)>),
        ("32 unacked of 16 bytes", Box::new(held(32, 16))),
        ("256 unacked of 240 bytes, pending", Box::new(|e| (0..256).for_each(|_| e.send(&BODY[..240])))),
        ("256 unacked of 240 bytes, committed", Box::new(held(256, 240))),
        ("the same, replayed", Box::new(|e| { held(256, 240)(e); e.replay(true); })),
        ("256 queued of 100 bytes", Box::new(|e| (2..=257).for_each(|n| e.data(n, &BODY[..100])))),
    ] {
        let before = unsafe { NOW };
        unsafe { PEAK = NOW };
        let mut session = their_start(1, &[]);
        list(&mut session);
        let peak = unsafe { PEAK } - before + std::mem::size_of::<Theirs>();
        println!("| {name} | {fixed} | {peak} |");
    }
}
