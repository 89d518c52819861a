//! The script of document 01's `linkrun`: S hex, P, C persisted, A number, R number accepted.
use crate::link::{Answer, Link, Outcome};
use crate::oracle::{lines, say, write_words};
use crate::script::{body, number, Call, Policy, Record};

/// `S ` and the hex of a body of 65,537 bytes, one more than the store holds.
const LONGEST_LINE: usize = 131_076;

/// The answers of a fresh class 2 Raw session, or nothing where none starts at that number.
pub fn answer_all(script: &[u8], message_number: u64) -> Option<Vec<u8>> {
    let record = Record { message_number, remote: 0, disposition: 0, unacked: Vec::new() };
    let policy = Policy { gap: 256, messages: 256, bytes: 32_768, body: 4_096 };
    let mut link = Link::start(record, policy, vec![0x72]).ok()?;
    let mut last_record = (0, 0, 0);
    let mut out = Vec::new();
    for (at, line) in lines(script).enumerate() {
        match read(line, last_record) {
            None => say(&mut out, format_args!("? {}\n", at + 1)),
            Some(call) => {
                let outcome = link.call(call);
                if let Answer::Record { generation, outbound, remote } = outcome.answer {
                    last_record = (generation, outbound, remote);
                }
                write_outcome(line[0].into(), &outcome, &mut out);
            }
        }
    }
    Some(out)
}

fn read(line: &[u8], last_record: (u32, u64, u64)) -> Option<Call> {
    if line.len() > LONGEST_LINE {
        return None;
    }
    let fields: Vec<&[u8]> = line.split(|b| *b == b' ').collect();
    let flag = |field| number(field).filter(|n| *n <= 1).map(|n| n == 1);
    match fields[..] {
        [b"S", hex] => Some(Call::Send { body: body(hex)? }),
        [b"P"] => Some(Call::Prepare),
        [b"C", persisted] => {
            let (generation, outbound, remote) = last_record;
            Some(Call::Complete { generation, outbound, remote, persisted: flag(persisted)? })
        }
        [b"A", n] => Some(Call::Ack { number: number(n)? }),
        [b"R", n, accepted] => Some(Call::Report { what: 0, number: number(n)?, accepted: flag(accepted)? }),
        _ => None,
    }
}

fn write_outcome(letter: char, outcome: &Outcome, out: &mut Vec<u8>) {
    let count = outcome.events.len();
    match &outcome.answer {
        // An ack is answered true by the Rust, and 0 here.
        Answer::Number(number) if letter == 'S' => say(out, format_args!("{letter} {number} {count}\n")),
        Answer::Number(_) => say(out, format_args!("{letter} 0 {count}\n")),
        Answer::Refused(refusal) => say(out, format_args!("{letter} ! {refusal}\n")),
        Answer::Record { generation, outbound, remote } => {
            say(out, format_args!("{letter} {generation} {outbound} {remote}\n"))
        }
        Answer::Held { .. } | Answer::NotHeld => unreachable!("nothing is fetched"),
    }
    for event in &outcome.events {
        write_words(event, out);
        out.push(b'\n');
    }
}
