//! Answers a call script line by line, in CALLS.md's words.
use std::io::Write;

use crate::host::Event;
use crate::link::{Answer, Link, Outcome, DISPOSITIONS};
use crate::script::{self, write_hex, Call};
use crate::view::Setup;

#[derive(Default)]
pub struct Oracle {
    pub link: Option<Link>,
    lines: u64,
}

impl Oracle {
    pub fn answer(&mut self, line: &[u8], out: &mut Vec<u8>) {
        self.lines += 1;
        let word = line.split(|b| *b == b' ').next().unwrap_or_default();
        match (script::read(line), &mut self.link) {
            (Some(Call::Start { record, policy, reject_body }), _) => {
                let answer = match Link::start(record, policy, reject_body) {
                    Ok(link) => {
                        self.link = Some(link);
                        Answer::Number(0)
                    }
                    Err(refusal) => Answer::Refused(refusal),
                };
                write_outcome(word, &Outcome { answer, events: Vec::new() }, out);
            }
            (Some(Call::State), Some(link)) => write_state(link, out),
            (Some(call @ Call::PokeGeneration { .. }), Some(link)) => drop(link.call(call)),
            (Some(call), Some(link)) => write_outcome(word, &link.call(call), out),
            _ => say(out, format_args!("? {}\n", self.lines)),
        }
    }
}

/// The answers to a whole script.
pub fn answer_all(script: &[u8], out: &mut impl Write) -> std::io::Result<()> {
    let mut oracle = Oracle::default();
    let mut answers = Vec::new();
    for line in lines(script) {
        oracle.answer(line, &mut answers);
        if answers.len() > 1 << 16 {
            out.write_all(&answers)?;
            answers.clear();
        }
    }
    out.write_all(&answers)
}

/// The lines of a text; an unfinished last one counts.
pub fn lines(text: &[u8]) -> impl Iterator<Item = &[u8]> {
    let finished = text.strip_suffix(b"\n").unwrap_or(text);
    let none = if text.is_empty() { 1 } else { 0 };
    finished.split(|b| *b == b'\n').skip(none)
}

pub fn say(out: &mut Vec<u8>, text: std::fmt::Arguments) {
    out.write_fmt(text).expect("memory takes every byte");
}

fn write_outcome(word: &[u8], outcome: &Outcome, out: &mut Vec<u8>) {
    out.extend_from_slice(word);
    let count = outcome.events.len();
    match &outcome.answer {
        Answer::Number(number) => say(out, format_args!(" {number} {count}")),
        Answer::Refused(refusal) => say(out, format_args!(" ! {refusal} {count}")),
        Answer::Record { generation, outbound, remote } => say(out, format_args!(" {generation} {outbound} {remote}")),
        Answer::Held { start, body } => {
            say(out, format_args!(" {start} {} ", body.len()));
            write_hex(body, out);
        }
        Answer::NotHeld => out.extend_from_slice(b" none"),
    }
    out.push(b'\n');
    for event in &outcome.events {
        write_words(event, out);
        if let Some(body) = &event.body {
            out.push(b' ');
            write_hex(body, out);
        }
        out.push(b'\n');
    }
}

/// The four words of an event.
pub fn write_words(event: &Event, out: &mut Vec<u8>) {
    let length = event.body.as_ref().map_or(0, Vec::len);
    say(out, format_args!("{} {} {} {}", event.code, event.number, event.start, length));
}

fn write_state(link: &Link, out: &mut Vec<u8>) {
    let view = link.session.view();
    let disposition = DISPOSITIONS.iter().position(|text| *text == view.disposition).unwrap_or(0);
    let (setup, terms, initiator) = match &view.setup {
        Setup::None => (0, "0", false),
        Setup::Waiting(terms, initiator) => (1, terms.as_str(), *initiator),
        Setup::Started => (2, "0", false),
        Setup::Retired => (3, "0", false),
    };
    say(out, format_args!("state {} {} {disposition} {setup} {terms} ", view.message_number, view.remote));
    say(out, format_args!("{} {} {}\n", initiator as u8, view.mode, view.failed as u8));
    let last = if view.last_replay.is_nan() { 0x7ff8 << 48 } else { view.last_replay.to_bits() };
    say(out, format_args!("clock {} {} {} ", view.generation, view.released, view.persisted));
    say(out, format_args!("{} {last:016x}\n", view.released_remote));
    say(out, format_args!("unacked {}", view.unacked.len()));
    for held in &view.unacked {
        say(out, format_args!(" {} {} {} ", held.number, held.pending as u8, held.unsent as u8));
        write_hex(&held.body, out);
    }
    say(out, format_args!("\nqueue {}", view.queue.len()));
    for (number, body) in &view.queue {
        say(out, format_args!(" {number} {} ", link.kinds[number]));
        write_hex(body, out);
    }
    for (name, numbers) in [("waiting", &view.waiting), ("retry", &view.retry)] {
        say(out, format_args!("\n{name} {}", numbers.len()));
        for number in numbers {
            say(out, format_args!(" {number}"));
        }
    }
    match &view.handoff {
        None => say(out, format_args!("\nhandoff 0\n")),
        Some(h) => {
            let (sent, acknowledged) = (h.sent as u8, h.acknowledged as u8);
            say(out, format_args!("\nhandoff 1 {} {} {sent} {acknowledged} ", h.id, h.msgno));
            write_hex(&h.message, out);
            out.push(b'\n');
        }
    }
}
