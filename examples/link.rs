//! include/link.h for Rust: the structs and the calls, and a session behind a safe type.
#![allow(dead_code)]

pub const LIST_WORDS: usize = 4096;
pub const DELIVERY_BYTES: usize = 49152;
pub const OUTBOUND_BYTES: usize = 65536;
pub const QUEUE_BYTES: usize = 32768;

pub type Words = [u64; 1296];
pub type Halves = [u32; 772];
pub type Bytes = [u8; 4936];

/// A session. Its numbers are the link's: read none but by calls, and write none. Save it with both stores.
#[repr(C)]
#[derive(Clone)]
pub struct Session {
    pub last_replay_at: f64,
    pub words: Words,
    pub halves: Halves,
    pub bytes: Bytes,
}
#[repr(C)]
#[derive(Clone, Copy, Debug, Default, PartialEq)]
pub struct Answer {
    pub refusal: u64,
    pub kind: u64,
    pub value: u64,
    pub second: u64,
    pub third: u64,
    pub events: usize,
}
#[repr(C)]
#[derive(Clone, Copy)]
pub struct Policy {
    pub gap: u64,
    pub messages: usize,
    pub bytes: usize,
    pub body: usize,
}
#[repr(C)]
#[derive(Clone, Copy)]
pub struct Reliable {
    pub message_number: u64,
    pub remote_number: u64,
    pub disposition: u64,
}
#[repr(C)]
#[derive(Clone, Copy)]
pub struct Given {
    pub present: bool,
    pub id: u64,
    pub number: u64,
    pub sent: bool,
    pub acknowledged: bool,
}
#[repr(C)]
#[derive(Clone, Copy)]
pub struct Commit {
    pub generation: u32,
    pub outbound: u64,
    pub remote: u64,
}
#[repr(C)]
#[derive(Clone, Copy)]
pub struct Status {
    pub available: bool,
    pub established: bool,
    pub discarding: bool,
}
#[repr(C)]
#[derive(Clone, Copy)]
pub struct ClassPolicy {
    pub policy: Policy,
    pub known: bool,
}

/// Calls that change the session, which is lent first.
macro_rules! changing {
    ($($name:ident($($argument:ident: $type:ty),*);)*) => {
        extern "C" {
            $(pub fn $name(words: &mut Words, halves: &mut Halves, bytes: &mut Bytes, last_replay_at: &mut f64, $($argument: $type),*) -> Answer;)*
        }
    };
}
/// Calls that read it.
macro_rules! reading {
    ($($name:ident($($argument:ident: $type:ty),*) -> $answer:ty;)*) => {
        extern "C" {
            $(pub fn $name(words: &Words, halves: &Halves, bytes: &Bytes, last_replay_at: &f64, $($argument: $type),*) -> $answer;)*
        }
    };
}
extern "C" {
    pub fn link_class(class: u64) -> ClassPolicy;
}
changing! {
    link_start(
        record: Reliable, numbers: *const u64, numbers_len: usize, lengths: *const u64, lengths_len: usize, bodies: *const u8, bodies_len: usize,
        policy: Policy, reject: *const u8, reject_len: usize, outbound: *mut u8, outbound_len: usize, queue: *mut u8, queue_len: usize
    );
    link_restore(
        outbound: *mut u8, outbound_len: usize, record: Reliable, numbers: *const u64, numbers_len: usize, lengths: *const u64, lengths_len: usize,
        bodies: *const u8, bodies_len: usize, given: Given, body: *const u8, body_len: usize
    );
    link_send(list: *mut u64, list_len: usize, outbound: *mut u8, outbound_len: usize, body: *const u8, body_len: usize);
    link_complete(list: *mut u64, list_len: usize, commit: Commit, persisted: bool);
    link_report(list: *mut u64, list_len: usize, what: u64, number: u64, accepted: bool);
    link_connectivity(list: *mut u64, list_len: usize, event: u64, time: f64, force: bool);
    link_data(
        list: *mut u64, list_len: usize, delivery: *mut u8, delivery_len: usize, outbound: *mut u8, outbound_len: usize, queue: *mut u8,
        queue_len: usize, status: Status, number: u64, kind: u64, body: *const u8, body_len: usize
    );
    link_ack(list: *mut u64, list_len: usize, outbound: *mut u8, outbound_len: usize, queue: *mut u8, queue_len: usize, number: u64);
}
reading! {
    link_prepare() -> Answer;
    link_find(outbound: *const u8, outbound_len: usize, number: u64) -> Answer;
    link_keepalive(list: *mut u64, list_len: usize) -> Answer;
    link_dirty() -> bool;
}

/// A call on a session: its four parts are lent, then the arguments. The pointers and lengths below are those of live slices that do not overlap.
macro_rules! change {
    ($call:ident, $session:expr $(, $argument:expr)*) => {{
        let s: &mut Session = &mut *$session;
        unsafe { $call(&mut s.words, &mut s.halves, &mut s.bytes, &mut s.last_replay_at $(, $argument)*) }
    }};
}
macro_rules! read {
    ($call:ident, $session:expr $(, $argument:expr)*) => {{
        let s: &Session = &*$session;
        unsafe { $call(&s.words, &s.halves, &s.bytes, &s.last_replay_at $(, $argument)*) }
    }};
}

/// An end of the link: its session with the two stores, and the buffers that it lends to each call.
pub struct Link {
    pub session: Box<Session>,
    pub outbound: Vec<u8>,
    pub queue: Vec<u8>,
    pub delivery: Vec<u8>,
    pub list: Vec<u64>,
}

pub const AVAILABLE: Status = Status { available: true, established: false, discarding: false };

impl Link {
    /// The buffers, and a session of zeros, which every call but a start refuses by 3.
    pub fn empty() -> Link {
        Link {
            session: Box::new(Session { last_replay_at: 0.0, words: [0; 1296], halves: [0; 772], bytes: [0; 4936] }),
            outbound: vec![0; OUTBOUND_BYTES],
            queue: vec![0; QUEUE_BYTES],
            delivery: vec![0; DELIVERY_BYTES],
            list: vec![0; LIST_WORDS],
        }
    }
    /// A fresh end of a link class, or of one whose record and messages are these.
    pub fn start(class: u64, record: Reliable, messages: &[(u64, &[u8])], reject: &[u8]) -> Link {
        let numbers: Vec<u64> = messages.iter().map(|m| m.0).collect();
        let lengths: Vec<u64> = messages.iter().map(|m| m.1.len() as u64).collect();
        let bodies: Vec<u8> = messages.iter().flat_map(|m| m.1.iter().copied()).collect();
        let mut link = Link::empty();
        link.start_again(class, record, &numbers, &lengths, &bodies, reject);
        link
    }
    /// A new session in the buffers that are there. A refused start leaves the session that was there.
    pub fn start_again(&mut self, class: u64, record: Reliable, numbers: &[u64], lengths: &[u64], bodies: &[u8], reject: &[u8]) -> Answer {
        let ((o, on), (q, qn)) = (self.lend_outbound(), self.lend_queue());
        let policy = unsafe { link_class(class).policy };
        change!(
            link_start, self.session, record, numbers.as_ptr(), numbers.len(), lengths.as_ptr(), lengths.len(), bodies.as_ptr(), bodies.len(), policy,
            reject.as_ptr(), reject.len(), o, on, q, qn
        )
    }
    pub fn restore(&mut self, record: Reliable, numbers: &[u64], lengths: &[u64], bodies: &[u8], given: Given, body: &[u8]) -> Answer {
        let (o, on) = self.lend_outbound();
        change!(
            link_restore, self.session, o, on, record, numbers.as_ptr(), numbers.len(), lengths.as_ptr(), lengths.len(), bodies.as_ptr(), bodies.len(),
            given, body.as_ptr(), body.len()
        )
    }
    fn lend(&mut self) -> (*mut u64, usize) {
        (self.list.as_mut_ptr(), self.list.len())
    }
    fn lend_outbound(&mut self) -> (*mut u8, usize) {
        (self.outbound.as_mut_ptr(), self.outbound.len())
    }
    fn lend_queue(&mut self) -> (*mut u8, usize) {
        (self.queue.as_mut_ptr(), self.queue.len())
    }
    pub fn send(&mut self, body: &[u8]) -> Answer {
        let ((l, ln), (o, on)) = (self.lend(), self.lend_outbound());
        change!(link_send, self.session, l, ln, o, on, body.as_ptr(), body.len())
    }
    pub fn prepare(&self) -> Commit {
        let a = read!(link_prepare, self.session);
        Commit { generation: a.value as u32, outbound: a.second, remote: a.third }
    }
    pub fn complete(&mut self, commit: Commit, persisted: bool) -> Answer {
        let (l, ln) = self.lend();
        change!(link_complete, self.session, l, ln, commit, persisted)
    }
    pub fn report(&mut self, what: u64, number: u64, accepted: bool) -> Answer {
        let (l, ln) = self.lend();
        change!(link_report, self.session, l, ln, what, number, accepted)
    }
    pub fn connectivity(&mut self, event: u64, time: f64, force: bool) -> Answer {
        let (l, ln) = self.lend();
        change!(link_connectivity, self.session, l, ln, event, time, force)
    }
    pub fn data(&mut self, status: Status, number: u64, kind: u64, body: &[u8]) -> Answer {
        let ((l, ln), (o, on), (q, qn)) = (self.lend(), self.lend_outbound(), self.lend_queue());
        let (d, dn) = (self.delivery.as_mut_ptr(), self.delivery.len());
        change!(link_data, self.session, l, ln, d, dn, o, on, q, qn, status, number, kind, body.as_ptr(), body.len())
    }
    pub fn ack(&mut self, number: u64) -> Answer {
        let ((l, ln), (o, on), (q, qn)) = (self.lend(), self.lend_outbound(), self.lend_queue());
        change!(link_ack, self.session, l, ln, o, on, q, qn, number)
    }
    pub fn keepalive(&mut self) -> Answer {
        let (l, ln) = self.lend();
        read!(link_keepalive, self.session, l, ln)
    }
    /// The body of a held number, as a part of the outbound store.
    pub fn fetch(&self, number: u64) -> Option<&[u8]> {
        let a = read!(link_find, self.session, self.outbound.as_ptr(), self.outbound.len(), number);
        (a.kind == 4).then(|| &self.outbound[a.value as usize..][..a.second as usize])
    }
    pub fn dirty(&self) -> bool {
        read!(link_dirty, self.session)
    }
    /// The events of a call, the last one.
    pub fn events(&self, answer: Answer) -> Vec<[u64; 4]> {
        self.list[..4 * answer.events].chunks(4).map(|v| [v[0], v[1], v[2], v[3]]).collect()
    }
}
