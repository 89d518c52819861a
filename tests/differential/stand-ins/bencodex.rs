//! Stand-in for bencodex. Document 01 makes the message kind, the proposal body and the reject
//! body inputs, so nothing is parsed or encoded here: the harness says beforehand what comes out.
use std::cell::{Cell, RefCell};

#[derive(Clone, Debug, PartialEq, Eq)]
pub enum Value {
    Text(String),
    Dictionary(Vec<(Value, Value)>),
}

thread_local! {
    static KIND: Cell<u8> = const { Cell::new(0) };
    static PROPOSAL: RefCell<Vec<u8>> = const { RefCell::new(Vec::new()) };
    static REJECT: RefCell<Vec<u8>> = const { RefCell::new(Vec::new()) };
}

/// What the bodies parsed from now on are: 0 other, 1 session_proposal, 2 session_reject.
pub fn set_kind(kind: u8) {
    KIND.with(|k| k.set(kind));
}

pub fn set_proposal_body(body: &[u8]) {
    PROPOSAL.with(|p| body.clone_into(&mut p.borrow_mut()));
}

pub fn set_reject_body(body: &[u8]) {
    REJECT.with(|r| body.clone_into(&mut r.borrow_mut()));
}

fn text(s: &str) -> Value {
    Value::Text(s.into())
}

pub fn parse(_body: &[u8]) -> Result<Value, String> {
    match KIND.with(Cell::get) {
        1 => Ok(Value::Dictionary(vec![
            (text("type"), text("session_proposal")),
            (text("proposer_amount"), text("0")),
            (text("responder_amount"), text("0")),
        ])),
        2 => Ok(Value::Dictionary(vec![(text("type"), text("session_reject"))])),
        _ => Err("no application message".into()),
    }
}

pub fn encode(value: &Value) -> Result<Vec<u8>, String> {
    let Value::Dictionary(fields) = value else {
        return Err("only messages are encoded".into());
    };
    let is = |kind: &str| fields.contains(&(text("type"), text(kind)));
    if is("session_proposal") {
        Ok(PROPOSAL.with(|p| p.borrow().clone()))
    } else if is("session_reject") {
        Ok(REJECT.with(|r| r.borrow().clone()))
    } else {
        Err("a message of no known kind".into())
    }
}
