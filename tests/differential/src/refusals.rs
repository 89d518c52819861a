//! Document 01's numbers for the texts with which the Rust refuses.

const TEXTS: [(u8, &str); 17] = [
    (4, "peer message body "),
    (5, "peer message "),
    (7, "peer acknowledgement "),
    (9, "initial reliable message is not a session proposal"),
    (21, "Reliable message number exhausted"),
    (24, "peer receive queue count "),
    (25, "peer receive queue bytes "),
    (29, "peer session has already been accepted"),
    (30, "session proposal must be the first reliable message"),
    (31, "terminal handoff was already restored with different state"),
    (32, "persisted terminal handoff has no matching Rust command"),
    (33, "cannot replace a pending terminal handoff command"),
    (34, "persisted terminal handoff does not match Rust pending command"),
    (35, "persisted acknowledged terminal handoff has inconsistent transport state"),
    (36, "persisted terminal handoff does not match its unacked reliable frame"),
    (37, "peer session channel already started"),
    (38, "peer session setup is retired"),
];

pub fn number_of(reason: &str) -> u8 {
    match TEXTS.iter().find(|(_, text)| reason.starts_with(text)) {
        Some((number, _)) => *number,
        None => panic!("a refusal without a number: {reason}"),
    }
}
