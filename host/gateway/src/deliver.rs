//! Bytes that come: shown to the server until it takes them, and acted on as it says.

use hislip::{Frames, Outcome, CONNECTIONS, SESSIONS};
use query::message::HEADER;
use query::names;

use crate::allow;
use crate::connection::Lane;
use crate::describe::{self, kept};
use crate::gateway::{Gateway, Who};
use crate::instrument::{asks, Fault, Job, Request};
use crate::session::{Session, SessionId, LONGEST_MESSAGE};

const REQUEST: u8 = 1;

/// A message that acted.
struct Acted<'a> {
    kind: u8,
    code: u8,
    parameter: u32,
    payload: &'a [u8],
}

impl<'a> Acted<'a> {
    fn of(message: &'a [u8]) -> Option<Acted<'a>> {
        let (header, payload) = message.split_first_chunk::<HEADER>()?;
        let [_, _, kind, code, p0, p1, p2, p3, ..] = *header;
        let parameter = u32::from_be_bytes([p0, p1, p2, p3]);
        Some(Acted {
            kind,
            code,
            parameter,
            payload,
        })
    }
}

impl Gateway {
    pub(crate) fn received(&mut self, number: usize, bytes: &[u8]) {
        if let Some(Some(connection)) = self.connections.get_mut(number) {
            connection.unread.extend_from_slice(bytes);
        }
    }

    /// Shows unread bytes until nothing more is taken: what one message did may free another.
    pub(crate) fn deliver_all(&mut self) {
        loop {
            let mut progress = false;
            for number in 0..CONNECTIONS {
                progress |= self.may_show(number) && self.deliver(number);
            }
            if !progress {
                return;
            }
        }
    }

    /// Whether a connection's bytes may be shown now. They wait while the program does not read what
    /// it was sent, and synchronous ones while the session's question is not answered. An opening at a
    /// full bench waits for the end of a program that has hung up.
    fn may_show(&self, number: usize) -> bool {
        let Some(connection) = &self.connections[number] else {
            return false;
        };
        if connection.unread.is_empty() {
            return false;
        }
        let waits = match connection.role {
            Some((session, Lane::Synchronous)) => {
                let session = self.sessions.get(&session);
                session.is_some_and(Session::is_busy)
            }
            Some((_, Lane::Asynchronous)) => false,
            None => self.sessions.len() >= SESSIONS && self.somebody_hung_up(),
        };
        !waits && connection.has_room()
    }

    /// Shows the unread bytes of one connection; true if that changed anything.
    fn deliver(&mut self, number: usize) -> bool {
        let who = self.who(number);
        let Some(connection) = &mut self.connections[number] else {
            return false;
        };
        let delivery = match self.server.deliver(number as u32, &connection.unread) {
            Ok(delivery) => delivery,
            Err(refusal) => {
                self.cut(number, refusal.reason());
                return true;
            }
        };
        let outcome = delivery.outcome;
        let output = kept(delivery.frames);
        let head: Vec<u8> = connection.unread.iter().take(HEADER).copied().collect();
        let message = connection.take(delivery.taken);
        let first_time = !std::mem::replace(&mut connection.held, outcome == Outcome::Held);
        match outcome {
            Outcome::MoreNeeded => return false,
            Outcome::Held => {
                if first_time {
                    self.say(who, || format!("{} held", describe::label(&head)));
                }
                return false;
            }
            Outcome::Skipped => {}
            Outcome::Ignored => self.say(who, || format!("{} ignored", describe::label(&head))),
            Outcome::ErrorSent => {
                self.route(&output);
                match allow::not_allowed(&message, &output) {
                    Some(what) => self.say(who, || format!("{}: {what}", describe::label(&head))),
                    None => self.say_errors(who, &head, &output),
                }
            }
            Outcome::Closed { session } => self.closed(number, session, &head, &output),
            Outcome::ActedOn { session } => self.acted_on(number, session, &message, &output),
        }
        true
    }

    /// The Errors and FatalErrors of an output; the first one's name stands for all.
    fn say_errors(&self, who: Who, head: &[u8], output: &[u8]) {
        self.say(who, || {
            let told = Frames::new(output).find_map(|frame| describe::told(&frame));
            let what = told.unwrap_or_else(|| "session closed by the program".into());
            format!("{}: {what}", describe::label(head))
        });
    }

    fn closed(&mut self, number: usize, session: Option<SessionId>, head: &[u8], output: &[u8]) {
        let who = self.who(number);
        self.route(output);
        self.close(number, session);
        let later = self.later_answers(Frames::new(output));
        self.say_errors(who, head, output);
        self.say_each(later);
    }

    fn acted_on(&mut self, number: usize, session: SessionId, message: &[u8], output: &[u8]) {
        let Some(acted) = Acted::of(message) else {
            return;
        };
        self.route(output);
        let mut later = Frames::new(output);
        let reply = match acted.kind {
            names::ASYNC_LOCK => later
                .next()
                .filter(|frame| usize::from(frame.connection) == number),
            _ => later.clone().next(),
        };
        let reply = reply.map(|frame| frame.code);
        self.follow(number, session, &acted, reply);
        let later = self.later_answers(later);
        let who = self.who(number);
        self.say(who, || {
            let (code, number) = (acted.code, acted.parameter);
            describe::acted_on(acted.kind, code, number, acted.payload, reply)
        });
        if Frames::new(output).any(|frame| frame.kind == names::INTERRUPTED) {
            let number = acted.parameter;
            self.say(who, || {
                format!("interrupted by {number:08x}: its RMT-delivered")
            });
        }
        self.say_each(later);
        self.pass_on(session, &acted);
    }

    /// What the gateway keeps beside the server follows what the message did.
    fn follow(&mut self, number: usize, session: SessionId, acted: &Acted, reply: Option<u8>) {
        let lane = match acted.kind {
            names::INITIALIZE => {
                let fresh = Session::new(self.next_ticket);
                self.sessions.insert(session, fresh);
                Some(Lane::Synchronous)
            }
            names::ASYNC_INITIALIZE => Some(Lane::Asynchronous),
            _ => None,
        };
        if let (Some(lane), Some(connection)) = (lane, &mut self.connections[number]) {
            connection.role = Some((session, lane));
        }
        let Some(state) = self.sessions.get_mut(&session) else {
            return;
        };
        match acted.kind {
            names::INITIALIZE => self.set_watch(session),
            names::ASYNC_INITIALIZE => state.whole = true,
            names::ASYNC_STATUS_QUERY => self.status_was_asked(session),
            names::ASYNC_LOCK if acted.code == REQUEST => {
                self.locks.requested(session, acted.payload, reply);
            }
            names::ASYNC_LOCK => self.locks.released(session, acted.parameter, reply),
            names::DATA | names::DATA_END | names::TRIGGER => {
                self.locks.came(session, Some(acted.parameter));
            }
            names::ASYNC_DEVICE_CLEAR => {
                self.locks.came(session, None);
                state.clear(self.next_ticket);
                self.bench.clear(session);
            }
            _ => {}
        }
    }

    /// Data, DataEND and Trigger go to the instrument; the end of a message makes it act.
    fn pass_on(&mut self, session: SessionId, acted: &Acted) {
        let Some(state) = self.sessions.get_mut(&session) else {
            return;
        };
        let request = match acted.kind {
            names::DATA => return state.add(acted.payload),
            names::DATA_END => {
                state.add(acted.payload);
                match state.end() {
                    Some(text) => Request::Message(text),
                    None => {
                        let who = self.who_of(session);
                        self.say(who, || {
                            format!("message above {LONGEST_MESSAGE} bytes dropped")
                        });
                        Request::Dropped(Fault::TooMuchData)
                    }
                }
            }
            names::TRIGGER => Request::Trigger,
            _ => return,
        };
        self.ask(session, request);
    }

    pub(crate) fn ask(&mut self, session: SessionId, request: Request) {
        let ticket = self.next_ticket;
        self.next_ticket += 1;
        let asks = asks(&request, self.trigger_answers);
        if let Some(state) = self.sessions.get_mut(&session) {
            match asks {
                true => state.question = Some(ticket),
                false => state.backlog += request.cost(),
            }
        }
        self.bench.push(Job {
            ticket,
            session,
            request,
        });
    }
}
