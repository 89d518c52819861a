//! The host of one call: it answers the status, lists frames and notices, and tells the bencodex
//! stand-in which kind the next body has.
use std::cell::{Cell, RefCell};
use std::collections::BTreeMap;

use crate::link::NoChannel;
use crate::peer_session::coordination::HostStatus;
use crate::peer_session::session::{PeerEvent, PeerHost, SendFrame, Session};
use crate::refusals;
use crate::script::Status;

/// An event's words; `start` is filled in for code 8 when the call has ended.
#[derive(Clone, Debug, PartialEq, Eq)]
pub struct Event {
    pub code: u8,
    pub number: u64,
    pub start: usize,
    pub body: Option<Vec<u8>>,
}

impl Event {
    fn plain(code: u8, number: u64) -> Self {
        Event { code, number, start: 0, body: None }
    }
}

/// What a send inside the Rust is.
#[derive(Clone, Copy)]
pub enum Sends {
    /// Listed and to be reported later; acks are code 9.
    Listed,
    /// As above, but accepted at once, since the Rust would stop. The link takes the notes back.
    ListedAccepted,
    /// Acks that are never reported, code 10.
    Unreported,
    /// Not a send: the answer of a report.
    Reported(bool),
}

pub struct Host<'a> {
    pub session: &'a Session<NoChannel>,
    pub status: Status,
    pub sends: Sends,
    /// The kind of the call's own message until the Rust has asked for the status once.
    pub own_kind: Cell<Option<u8>>,
    /// The kinds of the queued messages.
    pub kinds: &'a BTreeMap<u64, u8>,
    pub events: RefCell<Vec<Event>>,
    pub delivered: Cell<usize>,
}

impl Host<'_> {
    fn list(&self, event: Event) {
        self.events.borrow_mut().push(event);
    }
}

impl PeerHost for Host<'_> {
    fn send(&self, frame: SendFrame<'_>) -> Result<bool, String> {
        if let Sends::Reported(accepted) = self.sends {
            return Ok(accepted);
        }
        match frame {
            SendFrame::Data { msgno, body } => {
                self.list(Event { code: 8, number: msgno, start: 0, body: Some(body.to_vec()) });
                // "Not accepted" changes nothing in the Rust: what it is before its report.
                Ok(matches!(self.sends, Sends::ListedAccepted))
            }
            SendFrame::Ack { msgno } => {
                let code = if matches!(self.sends, Sends::Unreported) { 10 } else { 9 };
                self.list(Event::plain(code, msgno));
                // The Rust notes the answer in the retry acks: "accepted" removes, "not accepted" adds.
                // Before the report neither has happened, so the answer is the one that changes nothing.
                Ok(!self.session.is_retried(msgno))
            }
        }
    }

    /// The Rust asks for the status before it looks at a message: first the call's own,
    /// then, in the drain, the one after remote.
    fn status(&self) -> Result<HostStatus, String> {
        let kind = self.own_kind.take().unwrap_or_else(|| {
            let next = self.session.remote().checked_add(1);
            next.and_then(|n| self.kinds.get(&n).copied()).unwrap_or(0)
        });
        bencodex::set_kind(kind);
        let Status { available, established, discarding } = self.status;
        Ok(HostStatus { available, established, discarding })
    }

    fn notify(&self, event: PeerEvent) -> Result<(), String> {
        self.list(match event {
            // Raised by an acceptance that is not reported yet.
            PeerEvent::CommitRequested if matches!(self.sends, Sends::ListedAccepted) => return Ok(()),
            PeerEvent::CommitRequested => Event::plain(1, 0),
            PeerEvent::Message { msgno, body } => {
                let start = self.delivered.get();
                self.delivered.set(start + body.len());
                Event { code: 2, number: msgno, start, body: Some(body) }
            }
            PeerEvent::Acknowledged { msgno } => Event::plain(3, msgno),
            PeerEvent::RejectionAcknowledged => Event::plain(4, 0),
            PeerEvent::Keepalive => Event::plain(5, 0),
            PeerEvent::Committed => Event::plain(6, 0),
            PeerEvent::Failure { reason } => Event::plain(7, refusals::number_of(&reason).into()),
            PeerEvent::ChannelResult(_) | PeerEvent::Error { .. } => unreachable!("there is no channel"),
        });
        Ok(())
    }
}
