//! One end of the link: the unchanged Rust, with document 01's added rules in front of it.
use std::cell::{Cell, RefCell};
use std::collections::BTreeMap;

use crate::host::{Event, Host, Sends};
use crate::peer_session::coordination::{ReceiveMode, TerminalCommand, TerminalHandoff};
use crate::peer_session::session::{Channel, ChannelOutput, PeerInput, Session};
use crate::peer_session::{Message, PreparedCommit, ReceivePolicy, ReliableState, SessionTerms};
use crate::refusals::number_of;
use crate::script::{Call, Handoff, Policy, Record, Status};

const MOST_UNACKED: usize = 256;
const MOST_UNACKED_BYTES: usize = 65_536;
const MOST_UNANSWERED: usize = 512;
const MOST_RETRIES: usize = 512;
const MOST_HANDOFF_BYTES: usize = 4_096;
const GENERATION_LIMIT: u32 = 4_294_966_000;
const LAST_MESSAGE_NUMBER: u64 = u32::MAX as u64;

pub const DISPOSITIONS: [&str; 5] = ["other", "active", "proposal-received", "inbound-reject", "outbound-reject"];
const EVENTS: [&str; 5] = ["disconnected", "reconnected", "peer-unavailable", "registered", "peer-available"];
const MODES: [ReceiveMode; 5] =
    [ReceiveMode::Raw, ReceiveMode::Proposal, ReceiveMode::Channel, ReceiveMode::Rejection, ReceiveMode::Retiring];
const AWAY: Status = Status { available: false, established: false, discarding: false };

/// Document 01 ports a session whose channel is None.
pub enum NoChannel {}

impl Channel for NoChannel {
    fn status(&self) -> (bool, bool) {
        match *self {}
    }
    fn deliver(&mut self, _: &[u8]) -> Result<ChannelOutput, String> {
        match *self {}
    }
    fn complete_terminal(&mut self) -> Result<ChannelOutput, String> {
        match *self {}
    }
}

pub enum Answer {
    Number(u64),
    Refused(u8),
    Record { generation: u32, outbound: u64, remote: u64 },
    Held { start: usize, body: Vec<u8> },
    NotHeld,
}

pub struct Outcome {
    pub answer: Answer,
    pub events: Vec<Event>,
}

impl Outcome {
    fn refused(refusal: u8) -> Self {
        Outcome { answer: Answer::Refused(refusal), events: Vec::new() }
    }
    fn silent(answer: Answer) -> Self {
        Outcome { answer, events: Vec::new() }
    }
}

pub struct Link {
    pub session: Session<NoChannel>,
    reject_body: Vec<u8>,
    /// The kind of each queued message. The Rust reads it from the body each time.
    pub kinds: BTreeMap<u64, u8>,
}

impl Link {
    pub fn start(record: Record, policy: Policy, reject_body: Vec<u8>) -> Result<Link, u8> {
        check_record(&record)?;
        if policy.messages > 256 || policy.bytes > 32_768 || policy.body > 16_384 {
            return Err(3);
        }
        if !(1..=64).contains(&reject_body.len()) {
            return Err(3);
        }
        let policy = ReceivePolicy {
            max_future_reliable_msgno_gap: policy.gap,
            max_queued_messages: policy.messages as usize,
            max_queued_bytes: policy.bytes as usize,
            max_peer_body_bytes: policy.body as usize,
        };
        Ok(Link { session: Session::new(state_of(record), policy), reject_body, kinds: BTreeMap::new() })
    }

    /// Any call but `start` and `state`.
    pub fn call(&mut self, call: Call) -> Outcome {
        bencodex::set_reject_body(&self.reject_body);
        let outcome = match call {
            Call::Send { body } => self.send(body),
            Call::Data { status, number, kind, body } => self.data(status, number, kind, body),
            Call::Ack { number } => self.ack(number),
            Call::Keepalive => self.keepalive(),
            Call::Ready { status, mode } => self.ready(status, mode),
            Call::Accept { terms, initiator, proposal } => self.accept(terms, initiator, proposal),
            Call::Reject => self.reject(),
            Call::PrepareChannel { terms, initiator } => {
                let result = self.session.prepare_channel(terms_of(terms), initiator);
                self.answered(result.map(|()| 0), Vec::new())
            }
            Call::Command { restoring, command } => self.command(restoring, command),
            Call::Prepare => {
                let record = self.session.prepare_commit();
                Outcome::silent(Answer::Record {
                    generation: record.generation,
                    outbound: record.outbound_msgno,
                    remote: record.remote_number,
                })
            }
            Call::Complete { generation, outbound, remote, persisted } => {
                self.complete(generation, outbound, remote, persisted)
            }
            Call::Connectivity { event, now, forced } => self.connectivity(event, now, forced),
            Call::Report { what, number, accepted } => self.report(what, number, accepted),
            Call::Fetch { number } => Outcome::silent(match self.session.held(number) {
                Some((start, body)) => Answer::Held { start, body },
                None => Answer::NotHeld,
            }),
            Call::Retire { retain } => Outcome::silent(Answer::Number(self.session.retire(retain).into())),
            Call::Restore { record, handoff } => self.restore(record, handoff),
            Call::PokeGeneration { generation } => {
                self.session.set_generation(generation);
                Outcome::silent(Answer::Number(0))
            }
            Call::Start { .. } | Call::State => unreachable!("not a call on a session"),
        };
        // Kinds are noted before their message is queued, so there are never too few.
        if self.kinds.len() != self.session.queue_count() {
            self.kinds.retain(|number, _| self.session.is_queued(*number));
        }
        outcome
    }

    fn host(&self, status: Status, own_kind: Option<u8>, sends: Sends) -> Host<'_> {
        Host {
            session: &self.session,
            status,
            sends,
            own_kind: Cell::new(own_kind),
            kinds: &self.kinds,
            events: RefCell::default(),
            delivered: Cell::new(0),
        }
    }

    fn answered(&self, result: Result<u64, String>, events: Vec<Event>) -> Outcome {
        let answer = match result {
            Ok(number) => Answer::Number(number),
            Err(reason) => Answer::Refused(number_of(&reason)),
        };
        Outcome { answer, events }
    }

    /// 22: the generation is too near its limit for a call that may raise it.
    fn generation_spent(&self) -> bool {
        self.session.generation() >= GENERATION_LIMIT
    }

    /// 23: a number could be taken, but the new body would carry unacked past a limit.
    fn has_no_room(&self, length: usize) -> bool {
        self.session.message_number() <= LAST_MESSAGE_NUMBER
            && (self.session.unacked_count() + 1 > MOST_UNACKED
                || self.session.unacked_bytes() + length > MOST_UNACKED_BYTES)
    }

    fn send(&self, body: Vec<u8>) -> Outcome {
        if self.generation_spent() {
            return Outcome::refused(22);
        }
        if self.has_no_room(body.len()) {
            return Outcome::refused(23);
        }
        let host = self.host(AWAY, None, Sends::Listed);
        let result = self.session.send_message(body, &host);
        self.answered(result, host.events.into_inner())
    }

    fn data(&mut self, status: Status, number: u64, kind: u64, body: Vec<u8>) -> Outcome {
        if kind > 2 {
            return Outcome::refused(2);
        }
        if self.generation_spent() {
            return Outcome::refused(22);
        }
        // 4 and 5 are the Rust's and come before 6 and 26.
        if !self.session.is_no_candidate(number, body.len()) {
            let duplicate = number <= self.session.remote();
            if !duplicate && number == u64::MAX {
                return Outcome::refused(6);
            }
            let answered_at_once = duplicate && number <= self.session.released_remote();
            if self.session.waiting_count() + self.session.queue_count() == MOST_UNANSWERED
                && !self.session.is_waiting(number)
                && !self.session.is_queued(number)
                && !answered_at_once
            {
                return Outcome::refused(26);
            }
        }
        let kind = kind as u8;
        // A number that is queued already keeps its first kind; `call` forgets what was not queued.
        if !self.session.is_queued(number) {
            self.kinds.insert(number, kind);
        }
        let host = self.host(status, Some(kind), Sends::Unreported);
        let result = self.session.receive(PeerInput::Data { msgno: number, body }, &host);
        received(result, host.events.into_inner())
    }

    fn ack(&self, number: u64) -> Outcome {
        if self.generation_spent() {
            return Outcome::refused(22);
        }
        let host = self.host(AWAY, None, Sends::Listed);
        let result = self.session.receive(PeerInput::Ack { msgno: number }, &host);
        received(result, host.events.into_inner())
    }

    fn keepalive(&self) -> Outcome {
        let host = self.host(AWAY, None, Sends::Listed);
        let result = self.session.receive(PeerInput::Keepalive, &host);
        received(result, host.events.into_inner())
    }

    fn ready(&self, status: Status, mode: u64) -> Outcome {
        let Some(mode) = usize::try_from(mode).ok().and_then(|m| MODES.get(m)) else {
            return Outcome::refused(2);
        };
        if self.generation_spent() {
            return Outcome::refused(22);
        }
        let host = self.host(status, None, Sends::Unreported);
        let result = self.session.consumer_ready(*mode, &host);
        self.answered(result.map(|()| 0), host.events.into_inner())
    }

    fn accept(&self, terms: u32, initiator: bool, proposal: Vec<u8>) -> Outcome {
        if self.generation_spent() {
            return Outcome::refused(22);
        }
        // 29 and 30 are the Rust's and come before 23.
        let takes_number = initiator && !self.session.has_setup() && self.session.message_number() == 1;
        if takes_number && self.has_no_room(proposal.len()) {
            return Outcome::refused(23);
        }
        bencodex::set_proposal_body(&proposal);
        let result = self.session.accept_session(terms_of(terms), initiator);
        self.answered(result.map(|()| 0), Vec::new())
    }

    fn reject(&self) -> Outcome {
        if self.generation_spent() {
            return Outcome::refused(22);
        }
        if self.has_no_room(self.reject_body.len()) {
            return Outcome::refused(23);
        }
        let host = self.host(AWAY, None, Sends::Listed);
        let result = self.session.reject_session(&host);
        self.answered(result.map(|()| 0), host.events.into_inner())
    }

    fn command(&self, restoring: bool, command: Option<(u64, Vec<u8>)>) -> Outcome {
        if self.generation_spent() {
            return Outcome::refused(22);
        }
        let length = command.as_ref().map_or(0, |(_, body)| body.len());
        if length > MOST_HANDOFF_BYTES {
            return Outcome::refused(10);
        }
        // 32 to 36 are the Rust's and come before 23.
        let takes_number = command.is_some() && !self.session.has_handoff();
        if takes_number && self.has_no_room(length) {
            if restoring {
                self.session.start_setup();
            }
            return Outcome::refused(23);
        }
        let command = command.map(|(id, message)| TerminalCommand { id: id.to_string(), message });
        let host = self.host(AWAY, None, Sends::Listed);
        let result = self.session.channel_command(command, restoring, &host);
        self.answered(result.map(|()| 0), host.events.into_inner())
    }

    fn complete(&self, generation: u32, outbound: u64, remote: u64, persisted: bool) -> Outcome {
        if outbound == u64::MAX || remote == u64::MAX {
            return Outcome::refused(8);
        }
        let record = PreparedCommit { generation, outbound_msgno: outbound, remote_number: remote };
        let host = self.host(AWAY, None, Sends::Listed);
        let result = self.session.complete_commit(record, persisted, &host);
        self.answered(result.map(|()| 0), self.placed(host.events.into_inner()))
    }

    fn connectivity(&self, event: u64, now: f64, forced: bool) -> Outcome {
        if !(1..=5).contains(&event) {
            return Outcome::refused(2);
        }
        let event = EVENTS[event as usize - 1];
        let host = self.host(AWAY, None, Sends::ListedAccepted);
        let result = self.session.connectivity_unreported(event, now, forced, &host);
        self.answered(result.map(u64::from), self.placed(host.events.into_inner()))
    }

    fn report(&self, what: u64, number: u64, accepted: bool) -> Outcome {
        if what > 1 {
            return Outcome::refused(2);
        }
        let host = self.host(AWAY, None, Sends::Reported(accepted));
        let result = if what == 0 {
            self.session.report_data(number, &host)
        } else {
            if !accepted && self.session.retry_count() == MOST_RETRIES && !self.session.is_retried(number) {
                return Outcome::refused(27);
            }
            self.session.report_ack(number, &host)
        };
        self.answered(result.map(|()| 0), host.events.into_inner())
    }

    fn restore(&self, record: Record, handoff: Option<Handoff>) -> Outcome {
        if let Err(refusal) = check_record(&record) {
            return Outcome::refused(refusal);
        }
        if handoff.as_ref().is_some_and(|h| h.body.len() > MOST_HANDOFF_BYTES) {
            return Outcome::refused(10);
        }
        if self.session.generation() != 0 || self.session.queue_count() != 0 || self.session.waiting_count() != 0 {
            return Outcome::refused(28);
        }
        let handoff = handoff.map(|h| TerminalHandoff {
            id: h.id.to_string(),
            message: h.body,
            msgno: h.number,
            sent: h.sent,
            acknowledged: h.acknowledged,
        });
        let result = self.session.restore(state_of(record), handoff);
        self.answered(result.map(|()| 0), Vec::new())
    }

    /// Gives each code 8 its place in the outbound store as the call leaves it.
    fn placed(&self, mut events: Vec<Event>) -> Vec<Event> {
        if events.iter().any(|e| e.code == 8) {
            let places = self.session.places();
            for event in events.iter_mut().filter(|e| e.code == 8) {
                let at = places.binary_search_by_key(&event.number, |(number, _)| *number);
                event.start = places[at.expect("a listed message is held")].1;
            }
        }
        events
    }
}

/// Data, acks and keepalives answer true, or have listed their failure last.
fn received(result: Result<bool, String>, events: Vec<Event>) -> Outcome {
    let answer = match result.expect("the host never fails") {
        true => Answer::Number(1),
        false => Answer::Refused(events.last().expect("a failure is listed").number as u8),
    };
    Outcome { answer, events }
}

/// 2 and 3 of a start or restore record.
fn check_record(record: &Record) -> Result<(), u8> {
    if record.disposition > 4 {
        return Err(2);
    }
    let rising = record.unacked.windows(2).all(|pair| pair[0].number < pair[1].number);
    let in_range = record.unacked.iter().all(|held| held.number >= 1 && held.number < record.message_number);
    let bytes: usize = record.unacked.iter().map(|held| held.body.len()).sum();
    let sound = (1..=LAST_MESSAGE_NUMBER + 1).contains(&record.message_number)
        && record.remote <= u64::MAX - 1
        && rising
        && in_range
        && record.unacked.len() <= MOST_UNACKED
        && bytes <= MOST_UNACKED_BYTES;
    if sound {
        Ok(())
    } else {
        Err(3)
    }
}

fn state_of(record: Record) -> ReliableState {
    ReliableState {
        session_id: String::new(),
        message_number: record.message_number,
        remote_number: record.remote,
        unacked_messages: record.unacked.into_iter().map(|h| Message { msgno: h.number, msg: h.body }).collect(),
        disposition: DISPOSITIONS[record.disposition as usize].into(),
    }
}

/// The text of the terms is outside; their number stands in one of the texts.
fn terms_of(number: u32) -> SessionTerms {
    SessionTerms {
        proposer_amount: number.to_string(),
        responder_amount: String::new(),
        channel_timeout: None,
        unroll_timeout: None,
        network: None,
    }
}
