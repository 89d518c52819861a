//! A line of the call script (CALLS.md), read.

pub const LONGEST_LINE: usize = 300_000;

pub struct Held {
    pub number: u64,
    pub body: Vec<u8>,
}

/// What a start and a restore have in common.
pub struct Record {
    pub message_number: u64,
    pub remote: u64,
    pub disposition: u64,
    pub unacked: Vec<Held>,
}

pub struct Policy {
    pub gap: u64,
    pub messages: u64,
    pub bytes: u64,
    pub body: u64,
}

pub struct Handoff {
    pub id: u64,
    pub number: u64,
    pub sent: bool,
    pub acknowledged: bool,
    pub body: Vec<u8>,
}

#[derive(Clone, Copy)]
pub struct Status {
    pub available: bool,
    pub established: bool,
    pub discarding: bool,
}

pub enum Call {
    Start { record: Record, policy: Policy, reject_body: Vec<u8> },
    Send { body: Vec<u8> },
    Data { status: Status, number: u64, kind: u64, body: Vec<u8> },
    Ack { number: u64 },
    Keepalive,
    Ready { status: Status, mode: u64 },
    Accept { terms: u32, initiator: bool, proposal: Vec<u8> },
    Reject,
    PrepareChannel { terms: u32, initiator: bool },
    Command { restoring: bool, command: Option<(u64, Vec<u8>)> },
    Prepare,
    Complete { generation: u32, outbound: u64, remote: u64, persisted: bool },
    Connectivity { event: u64, now: f64, forced: bool },
    Report { what: u64, number: u64, accepted: bool },
    Fetch { number: u64 },
    Retire { retain: bool },
    Restore { record: Record, handoff: Option<Handoff> },
    State,
    PokeGeneration { generation: u32 },
}

/// The call of a line, or nothing where the line is no call.
pub fn read(line: &[u8]) -> Option<Call> {
    if line.len() > LONGEST_LINE {
        return None;
    }
    let mut f = Fields(line.split(|b| *b == b' '));
    let call = match f.next()? {
        b"start" => {
            let (message_number, remote, disposition) = (f.number()?, f.number()?, f.number()?);
            let policy = Policy { gap: f.number()?, messages: f.number()?, bytes: f.number()?, body: f.number()? };
            let reject_body = f.body()?;
            let unacked = f.held()?;
            Call::Start { record: Record { message_number, remote, disposition, unacked }, policy, reject_body }
        }
        b"send" => Call::Send { body: f.body()? },
        b"data" => Call::Data { status: f.status()?, number: f.number()?, kind: f.number()?, body: f.body()? },
        b"ack" => Call::Ack { number: f.number()? },
        b"keepalive" => Call::Keepalive,
        b"ready" => Call::Ready { status: f.status()?, mode: f.number()? },
        b"accept" => Call::Accept { terms: f.narrow()?, initiator: f.flag()?, proposal: f.body()? },
        b"reject" => Call::Reject,
        b"prepare_channel" => Call::PrepareChannel { terms: f.narrow()?, initiator: f.flag()? },
        b"command" => {
            let (restoring, present, id, body) = (f.flag()?, f.flag()?, f.number()?, f.body()?);
            if !present && (id != 0 || !body.is_empty()) {
                return None;
            }
            Call::Command { restoring, command: present.then_some((id, body)) }
        }
        b"prepare" => Call::Prepare,
        b"complete" => {
            Call::Complete { generation: f.narrow()?, outbound: f.number()?, remote: f.number()?, persisted: f.flag()? }
        }
        b"connectivity" => Call::Connectivity { event: f.number()?, now: f.clock()?, forced: f.flag()? },
        b"report" => Call::Report { what: f.number()?, number: f.number()?, accepted: f.flag()? },
        b"fetch" => Call::Fetch { number: f.number()? },
        b"retire" => Call::Retire { retain: f.flag()? },
        b"restore" => {
            let (message_number, remote, disposition) = (f.number()?, f.number()?, f.number()?);
            let unacked = f.held()?;
            let handoff = match f.flag()? {
                false => None,
                true => Some(Handoff {
                    id: f.number()?,
                    number: f.number()?,
                    sent: f.flag()?,
                    acknowledged: f.flag()?,
                    body: f.body()?,
                }),
            };
            Call::Restore { record: Record { message_number, remote, disposition, unacked }, handoff }
        }
        b"state" => Call::State,
        b"poke" => match f.next()? {
            b"generation" => Call::PokeGeneration { generation: f.narrow()? },
            _ => return None,
        },
        _ => return None,
    };
    f.next().is_none().then_some(call)
}

struct Fields<'a, I: Iterator<Item = &'a [u8]>>(I);

impl<'a, I: Iterator<Item = &'a [u8]>> Fields<'a, I> {
    fn next(&mut self) -> Option<&'a [u8]> {
        self.0.next()
    }
    fn number(&mut self) -> Option<u64> {
        number(self.next()?)
    }
    fn narrow(&mut self) -> Option<u32> {
        self.number()?.try_into().ok()
    }
    fn flag(&mut self) -> Option<bool> {
        match self.number()? {
            0 => Some(false),
            1 => Some(true),
            _ => None,
        }
    }
    fn status(&mut self) -> Option<Status> {
        let bits = self.number()?;
        (bits <= 7).then_some(Status {
            available: bits & 1 != 0,
            established: bits & 2 != 0,
            discarding: bits & 4 != 0,
        })
    }
    fn body(&mut self) -> Option<Vec<u8>> {
        body(self.next()?)
    }
    fn clock(&mut self) -> Option<f64> {
        let digits = self.next()?;
        if digits.len() != 16 {
            return None;
        }
        let bytes: [u8; 8] = unhex(digits)?.try_into().ok()?;
        Some(f64::from_bits(u64::from_be_bytes(bytes)))
    }
    fn held(&mut self) -> Option<Vec<Held>> {
        // No capacity from the count: a line may name more than it holds.
        let count = self.number()?;
        let mut held = Vec::new();
        for _ in 0..count {
            held.push(Held { number: self.number()?, body: self.body()? });
        }
        Some(held)
    }
}

/// Decimal digits, at least one, up to 2^64 - 1; leading zeros are read.
pub fn number(digits: &[u8]) -> Option<u64> {
    if digits.is_empty() {
        return None;
    }
    digits.iter().try_fold(0u64, |value, digit| {
        let digit = digit.is_ascii_digit().then(|| u64::from(digit - b'0'))?;
        value.checked_mul(10)?.checked_add(digit)
    })
}

/// `-` for an empty body, else lower-case hex.
pub fn body(field: &[u8]) -> Option<Vec<u8>> {
    match field {
        b"-" => Some(Vec::new()),
        b"" => None,
        _ => unhex(field),
    }
}

fn unhex(digits: &[u8]) -> Option<Vec<u8>> {
    let value = |digit: u8| match digit {
        b'0'..=b'9' => Some(digit - b'0'),
        b'a'..=b'f' => Some(digit - b'a' + 10),
        _ => None,
    };
    if digits.len() % 2 != 0 {
        return None;
    }
    digits.chunks_exact(2).map(|pair| Some(value(pair[0])? << 4 | value(pair[1])?)).collect()
}

pub fn write_hex(body: &[u8], out: &mut Vec<u8>) {
    if body.is_empty() {
        out.push(b'-');
    }
    const DIGITS: &[u8; 16] = b"0123456789abcdef";
    out.extend(body.iter().flat_map(|b| [DIGITS[usize::from(b >> 4)], DIGITS[usize::from(b & 15)]]));
}
