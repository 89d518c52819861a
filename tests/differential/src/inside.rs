//! Compiled as the module that session.rs names `tests`, which sees every private field.
//! It reads the state, runs the private functions that a report needs, and changes the state
//! only where a sentence of document 01 has no call of the Rust behind it.
use super::*;
use crate::link::NoChannel;
use crate::view::{Setup, Summary, UnackedView, View};

impl Session<NoChannel> {
    pub(crate) fn generation(&self) -> u32 {
        self.state.borrow().generation
    }

    pub(crate) fn message_number(&self) -> u64 {
        self.state.borrow().state.message_number
    }

    pub(crate) fn remote(&self) -> u64 {
        self.state.borrow().state.remote_number
    }

    pub(crate) fn released_remote(&self) -> u64 {
        self.state.borrow().released_remote_number
    }

    pub(crate) fn has_setup(&self) -> bool {
        self.state.borrow().setup.is_some()
    }

    pub(crate) fn has_handoff(&self) -> bool {
        self.state.borrow().terminal_handoff.is_some()
    }

    pub(crate) fn unacked_count(&self) -> usize {
        self.state.borrow().state.unacked_messages.len()
    }

    pub(crate) fn unacked_bytes(&self) -> usize {
        self.state.borrow().state.unacked_messages.iter().map(|m| m.msg.len()).sum()
    }

    pub(crate) fn queue_count(&self) -> usize {
        self.state.borrow().reorder_queue.len()
    }

    pub(crate) fn is_queued(&self, number: u64) -> bool {
        self.state.borrow().reorder_queue.contains_key(&number)
    }

    pub(crate) fn waiting_count(&self) -> usize {
        self.state.borrow().pending_acks.len()
    }

    pub(crate) fn is_waiting(&self, number: u64) -> bool {
        self.state.borrow().pending_acks.contains(&number)
    }

    pub(crate) fn retry_count(&self) -> usize {
        self.state.borrow().retry_acks.len()
    }

    pub(crate) fn is_retried(&self, number: u64) -> bool {
        self.state.borrow().retry_acks.contains(&number)
    }

    /// Whether the Rust refuses this data by the body's length or the gap.
    pub(crate) fn is_no_candidate(&self, number: u64, length: usize) -> bool {
        self.state.borrow().delivery_candidate(number, length).is_err()
    }

    /// The place of a held body in the packed outbound store, and the body.
    pub(crate) fn held(&self, number: u64) -> Option<(usize, Vec<u8>)> {
        let session = self.state.borrow();
        let messages = &session.state.unacked_messages;
        let at = messages.iter().position(|m| m.msgno == number)?;
        let start = messages[..at].iter().map(|m| m.msg.len()).sum();
        Some((start, messages[at].msg.clone()))
    }

    /// The places of all held bodies, by rising number.
    pub(crate) fn places(&self) -> Vec<(u64, usize)> {
        let mut start = 0;
        let session = self.state.borrow();
        let place = |m: &super::super::Message| {
            let here = (m.msgno, start);
            start += m.msg.len();
            here
        };
        session.state.unacked_messages.iter().map(place).collect()
    }

    /// A report: the Rust's own `send_data` or `send_ack`, whose host answers what was reported.
    pub(crate) fn report_data(&self, number: u64, host: &impl PeerHost) -> Result<(), String> {
        self.send_data(number, &[], host).map(drop)
    }

    pub(crate) fn report_ack(&self, number: u64, host: &impl PeerHost) -> Result<(), String> {
        self.send_ack(number, host)
    }

    /// The Rust's `connectivity` goes on only while frames are accepted, and notes at once that they
    /// were. Here every frame is listed and none is reported yet, so the notes are taken back.
    pub(crate) fn connectivity_unreported(
        &self,
        event: &str,
        now: f64,
        force: bool,
        host: &impl PeerHost,
    ) -> Result<bool, String> {
        let (unsent, handoff) = {
            let session = self.state.borrow();
            (session.unsent_outbound.clone(), session.terminal_handoff.clone())
        };
        let answer = self.connectivity(event, now, force, host);
        let mut session = self.state.borrow_mut();
        session.unsent_outbound = unsent;
        session.terminal_handoff = handoff;
        answer
    }

    /// A restoring command that the added refusal 23 stops has set this before.
    pub(crate) fn start_setup(&self) {
        self.state.borrow_mut().setup = Some(SetupState::ChannelStarted);
    }

    pub(crate) fn set_generation(&self, generation: u32) {
        self.state.borrow_mut().generation = generation;
    }

    pub(crate) fn summary(&self) -> Summary {
        let session = self.state.borrow();
        let number = |n: Option<&u64>| n.copied();
        Summary {
            message_number: session.state.message_number,
            remote: session.state.remote_number,
            generation: session.generation,
            released: session.released_generation,
            released_remote: session.released_remote_number,
            unacked: session.state.unacked_messages.iter().map(|m| m.msgno).collect(),
            unacked_bytes: session.state.unacked_messages.iter().map(|m| m.msg.len()).sum(),
            queue: session.reorder_queue.len(),
            last_queued: number(session.reorder_queue.keys().next_back()),
            queue_bytes: session.reorder_queue.values().map(Vec::len).sum(),
            waiting: session.pending_acks.len(),
            retry: session.retry_acks.len(),
            first_retry: number(session.retry_acks.first()),
            last_replay: session.last_replay_at,
            mode: session.receive_mode as u8,
            gap: session.policy.max_future_reliable_msgno_gap,
            policy_bytes: session.policy.max_queued_bytes,
            policy_body: session.policy.max_peer_body_bytes,
            handoff: session.terminal_handoff.clone(),
        }
    }

    pub(crate) fn view(&self) -> View {
        let session = self.state.borrow();
        let unacked = |m: &super::super::Message| UnackedView {
            number: m.msgno,
            pending: session.pending_outbound.contains_key(&m.msgno),
            unsent: session.unsent_outbound.contains(&m.msgno),
            body: m.msg.clone(),
        };
        View {
            message_number: session.state.message_number,
            remote: session.state.remote_number,
            disposition: session.state.disposition.clone(),
            setup: match &session.setup {
                None => Setup::None,
                Some(SetupState::WaitingForWalletAddress { terms, initiator }) => {
                    Setup::Waiting(terms.proposer_amount.clone(), *initiator)
                }
                Some(SetupState::ChannelStarted) => Setup::Started,
                Some(SetupState::Retired) => Setup::Retired,
            },
            mode: session.receive_mode as u8,
            failed: session.failed,
            generation: session.generation,
            released: session.released_generation,
            persisted: session.persisted_generation,
            released_remote: session.released_remote_number,
            last_replay: session.last_replay_at,
            unacked: session.state.unacked_messages.iter().map(unacked).collect(),
            queue: session.reorder_queue.iter().map(|(n, body)| (*n, body.clone())).collect(),
            waiting: session.pending_acks.iter().copied().collect(),
            retry: session.retry_acks.iter().copied().collect(),
            handoff: session.terminal_handoff.clone(),
        }
    }
}
