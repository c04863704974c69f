//! A bench for the tests: a server, and short ways to send to it and to say what came back.

#![allow(dead_code)] // each test file uses its own part

pub use reference::compose::message;
use reference::event::frames;
use reference::limits::CONNECTIONS;
use reference::{Mode, Outcome, Refusal, Server};

pub const FATAL: u8 = 2;
pub const ERROR: u8 = 3;
pub const LOCK: u8 = 4;
pub const LOCKED: u8 = 5;
pub const DATA: u8 = 6;
pub const DATA_END: u8 = 7;
pub const CLEARED: u8 = 8;
pub const TRIGGER: u8 = 12;
pub const CLEAR: u8 = 19;
pub const QUERY: u8 = 21;
pub const INFO: u8 = 24;

/// What a release names if no message was sent before it.
pub const BEFORE_FIRST: u32 = 0xffff_fefe;

/// A frame that came out.
#[derive(Clone, Debug, PartialEq, Eq)]
pub struct Sent {
    pub to: u8,
    pub kind: u8,
    pub code: u8,
    pub parameter: u32,
    pub payload: Vec<u8>,
}

pub fn sent(to: u8, kind: u8, code: u8, parameter: u32) -> Sent {
    Sent {
        to,
        kind,
        code,
        parameter,
        payload: Vec::new(),
    }
}

/// A delivery that was not refused.
#[derive(Clone, Debug, PartialEq, Eq)]
pub struct Seen {
    pub outcome: Outcome,
    pub session: u16,
    pub taken: usize,
    pub frames: Vec<Sent>,
}

pub fn seen(outcome: Outcome, session: u16, taken: usize, frames: &[Sent]) -> Seen {
    Seen {
        outcome,
        session,
        taken,
        frames: frames.to_vec(),
    }
}

pub fn more_needed() -> Seen {
    seen(Outcome::MoreNeeded, 0, 0, &[])
}

pub fn held() -> Seen {
    seen(Outcome::Held, 0, 0, &[])
}

pub fn ignored(taken: usize) -> Seen {
    seen(Outcome::Ignored, 0, taken, &[])
}

pub fn error(to: u8, code: u8, taken: usize) -> Seen {
    seen(Outcome::ErrorSent, 0, taken, &[sent(to, ERROR, code, 0)])
}

/// FatalError to one connection without a session.
pub fn fatal(to: u8, code: u8) -> Seen {
    seen(Outcome::Closed, 0, 0, &[sent(to, FATAL, code, 0)])
}

/// FatalError on both channels of a session.
pub fn fatal_both(client: Client, code: u8) -> Seen {
    let both = [
        sent(client.sync, FATAL, code, 0),
        sent(client.asynchronous, FATAL, code, 0),
    ];
    seen(Outcome::Closed, client.number, 0, &both)
}

#[derive(Clone, Copy, Debug, PartialEq, Eq)]
pub struct Client {
    pub number: u16,
    pub sync: u8,
    pub asynchronous: u8,
}

pub struct Bench {
    pub server: Server,
    out: Vec<u8>,
    /// By synchronous connection: the number that its program sends next, in step.
    next: [u32; CONNECTIONS],
    /// By asynchronous connection: the session's synchronous one.
    partner: [u8; CONNECTIONS],
}

/// A program's first MessageID.
pub const FIRST: u32 = 0xffff_ff00;

impl Bench {
    /// A fresh server of vendor "AA" that prefers synchronized mode.
    pub fn new() -> Bench {
        Bench::preferring(Mode::Synchronized)
    }

    pub fn preferring(mode: Mode) -> Bench {
        Bench {
            server: Server::preferring(u16::from_be_bytes(*b"AA"), mode),
            out: (0..2048).map(|i| (i * 7) as u8).collect(),
            next: [FIRST; CONNECTIONS],
            partner: [0; CONNECTIONS],
        }
    }

    /// Runs a call with the buffer, checks that bytes after the frames keep their values.
    fn output<T>(
        &mut self,
        call: impl FnOnce(&mut Server, &mut [u8]) -> Result<(T, usize), Refusal>,
    ) -> Result<(T, Vec<Sent>), Refusal> {
        let before = self.out.clone();
        let (value, length) = call(&mut self.server, &mut self.out)?;
        assert_eq!(self.out[length..], before[length..], "untouched bytes");
        let own = |frame: &reference::event::Frame| Sent {
            to: frame.connection,
            kind: frame.kind,
            code: frame.code,
            parameter: frame.parameter,
            payload: frame.payload.to_vec(),
        };
        let found = frames(&self.out[..length]).expect("whole frames");
        Ok((value, found.iter().map(own).collect()))
    }

    pub fn open(&mut self, connection: u8) {
        self.server.open(connection.into()).expect("can be opened");
    }

    pub fn try_deliver(&mut self, connection: u32, bytes: &[u8]) -> Result<Seen, Refusal> {
        let (delivery, frames) = self.output(|server, out| {
            let delivery = server.deliver(connection, bytes, out)?;
            Ok((delivery, delivery.output))
        })?;
        Ok(Seen {
            outcome: delivery.outcome,
            session: delivery.session,
            taken: delivery.taken,
            frames,
        })
    }

    pub fn deliver(&mut self, connection: u8, bytes: &[u8]) -> Seen {
        let seen = self.try_deliver(connection.into(), bytes).expect("open");
        let taken = matches!(seen.outcome, Outcome::ActedOn | Outcome::ErrorSent);
        if let (true, &[_, _, kind, _, p0, p1, p2, p3, ..]) = (taken, bytes) {
            let number = u32::from_be_bytes([p0, p1, p2, p3]);
            let place = usize::from(connection);
            match kind {
                DATA | DATA_END | TRIGGER if number == self.next[place] => {
                    self.next[place] = number.wrapping_add(2);
                }
                CLEAR => self.next[usize::from(self.partner[place])] = FIRST,
                _ => {}
            }
        }
        seen
    }

    /// Data, DataEND and Trigger are in step; other messages have parameter 0.
    pub fn send(&mut self, connection: u8, kind: u8, code: u8, payload: &[u8]) -> Seen {
        let number = match kind {
            DATA | DATA_END | TRIGGER => self.next[usize::from(connection)],
            _ => 0,
        };
        self.deliver(connection, &message(kind, code, number, payload))
    }

    /// The number that a program sends next.
    pub fn next(&self, client: Client) -> u32 {
        self.next[usize::from(client.sync)]
    }

    pub fn try_cut(&mut self, connection: u32) -> Result<Vec<Sent>, Refusal> {
        let cut = self.output(|server, out| Ok(((), server.cut(connection, out)?)))?;
        Ok(cut.1)
    }

    pub fn cut(&mut self, connection: u8) -> Vec<Sent> {
        self.try_cut(connection.into()).expect("open")
    }

    pub fn try_clock(&mut self, milliseconds: u64) -> Result<Vec<Sent>, Refusal> {
        let read = self.output(|server, out| Ok(((), server.clock(milliseconds, out)?)))?;
        Ok(read.1)
    }

    pub fn clock(&mut self, milliseconds: u64) -> Vec<Sent> {
        self.try_clock(milliseconds).expect("a good reading")
    }

    /// An answer while nothing is unread: it is sent.
    pub fn answer(
        &mut self,
        session: u32,
        payload: &[u8],
        end: bool,
    ) -> Result<Vec<Sent>, Refusal> {
        let (withheld, frames) = self.answer_beside(session, payload, end, b"")?;
        assert!(!withheld);
        Ok(frames)
    }

    /// An answer while these bytes are unread; whether it is withheld, and what is sent.
    pub fn answer_beside(
        &mut self,
        session: u32,
        payload: &[u8],
        end: bool,
        shown: &[u8],
    ) -> Result<(bool, Vec<Sent>), Refusal> {
        self.output(|server, out| {
            let answered = server.answer(session, payload, end, shown, out)?;
            Ok((answered.withheld, answered.output))
        })
    }

    /// Opens the connection and sends Initialize.
    pub fn half_open(&mut self, sync: u8) -> u16 {
        self.open(sync);
        self.next[usize::from(sync)] = FIRST;
        let opened = self.deliver(sync, &message(0, 0, 0x0100_4141, b""));
        assert_eq!(opened.outcome, Outcome::ActedOn);
        opened.session
    }

    pub fn session_on(&mut self, sync: u8, asynchronous: u8) -> Client {
        let number = self.half_open(sync);
        self.open(asynchronous);
        self.partner[usize::from(asynchronous)] = sync;
        let joined = self.deliver(asynchronous, &message(17, 0, number.into(), b""));
        assert_eq!((joined.outcome, joined.session), (Outcome::ActedOn, number));
        Client {
            number,
            sync,
            asynchronous,
        }
    }

    /// A fresh server with so many sessions, on connections 0 and 1, 2 and 3, ...
    pub fn with<const N: usize>() -> (Bench, [Client; N]) {
        let mut bench = Bench::new();
        let clients = std::array::from_fn(|i| bench.session_on(2 * i as u8, 2 * i as u8 + 1));
        (bench, clients)
    }

    /// The answer's code, or None if the request waits.
    pub fn lock(&mut self, client: Client, string: &[u8], timeout: u32) -> Option<u8> {
        let seen = self.deliver(client.asynchronous, &message(LOCK, 1, timeout, string));
        assert_eq!(
            (seen.outcome, seen.session),
            (Outcome::ActedOn, client.number)
        );
        assert_eq!(seen.taken, 16 + string.len());
        match &seen.frames[..] {
            [] => None,
            [one] => {
                assert_eq!((one.to, one.kind), (client.asynchronous, LOCKED));
                Some(one.code)
            }
            _ => panic!("one answer: {seen:?}"),
        }
    }

    /// A release that names this message.
    pub fn release_after(&mut self, client: Client, number: u32) -> Seen {
        self.deliver(client.asynchronous, &message(LOCK, 0, number, b""))
    }

    /// A release of a program that has sent no message: its code and what was granted because of it.
    pub fn release(&mut self, client: Client) -> (u8, Vec<Sent>) {
        let mut seen = self.release_after(client, BEFORE_FIRST);
        let own = seen.frames.remove(0);
        assert_eq!((own.to, own.kind), (client.asynchronous, LOCKED));
        (own.code, seen.frames)
    }

    pub fn status_of(&mut self, client: Client, code: u8) -> u8 {
        let seen = self.send(client.asynchronous, QUERY, code, b"");
        assert_eq!(
            (seen.frames[0].to, seen.frames[0].kind),
            (client.asynchronous, 22)
        );
        seen.frames[0].code
    }

    /// Code and parameter of AsyncLockInfoResponse.
    pub fn info(&mut self, client: Client) -> (u8, u32) {
        let seen = self.send(client.asynchronous, INFO, 0, b"");
        assert_eq!(seen.frames[0].kind, 25);
        (seen.frames[0].code, seen.frames[0].parameter)
    }

    /// DataEND in step, acted on; its number.
    pub fn ask(&mut self, client: Client) -> u32 {
        let number = self.next(client);
        let seen = self.deliver(client.sync, &message(DATA_END, 0, number, b"*IDN?"));
        assert_eq!(seen.outcome, Outcome::ActedOn);
        number
    }

    /// Runs what must change nothing.
    pub fn unchanged<T>(&mut self, what: impl FnOnce(&mut Bench) -> T) -> T {
        let before = (self.server.clone(), self.out.clone());
        let result = what(self);
        assert_eq!(
            (self.server.clone(), self.out.clone()),
            before,
            "nothing changes"
        );
        result
    }
}

pub fn acted(client: Client, taken: usize, frames: &[Sent]) -> Seen {
    seen(Outcome::ActedOn, client.number, taken, frames)
}

pub fn released(client: Client, code: u8) -> Sent {
    sent(client.asynchronous, LOCKED, code, 0)
}

pub fn granted(client: Client) -> Sent {
    sent(client.asynchronous, LOCKED, 1, 0)
}

pub fn timed_out(client: Client) -> Sent {
    sent(client.asynchronous, LOCKED, 0, 0)
}
