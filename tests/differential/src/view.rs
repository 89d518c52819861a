//! What the harness reads of a session, in plain public fields.
use crate::peer_session::coordination::TerminalHandoff;

pub enum Setup {
    None,
    Waiting(String, bool),
    Started,
    Retired,
}

pub struct UnackedView {
    pub number: u64,
    pub pending: bool,
    pub unsent: bool,
    pub body: Vec<u8>,
}

/// The whole state.
pub struct View {
    pub message_number: u64,
    pub remote: u64,
    pub disposition: String,
    pub setup: Setup,
    pub mode: u8,
    pub failed: bool,
    pub generation: u32,
    pub released: u32,
    pub persisted: u32,
    pub released_remote: u64,
    pub last_replay: f64,
    pub unacked: Vec<UnackedView>,
    pub queue: Vec<(u64, Vec<u8>)>,
    pub waiting: Vec<u64>,
    pub retry: Vec<u64>,
    pub handoff: Option<TerminalHandoff>,
}

/// What the generator aims by: no bodies, so that it is cheap to take before every call.
pub struct Summary {
    pub message_number: u64,
    pub remote: u64,
    pub generation: u32,
    pub released: u32,
    pub released_remote: u64,
    pub unacked: Vec<u64>,
    pub unacked_bytes: usize,
    pub queue: usize,
    pub last_queued: Option<u64>,
    pub queue_bytes: usize,
    pub waiting: usize,
    pub retry: usize,
    pub first_retry: Option<u64>,
    pub last_replay: f64,
    pub mode: u8,
    pub gap: u64,
    pub policy_bytes: usize,
    pub policy_body: usize,
    pub handoff: Option<TerminalHandoff>,
}
