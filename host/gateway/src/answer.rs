//! What the instrument gives back: answers go to their session in pieces that the client takes.

use hislip::{Answered, Frames, PAYLOAD};

use crate::connection::{Connection, Lane};
use crate::describe::{self, kept};
use crate::gateway::{Gateway, Who};
use crate::instrument::{Done, Fault, Request};
use crate::session::{Answer, SessionId};

impl Gateway {
    /// The session's synchronous connection.
    fn synchronous(&self, session: SessionId) -> Option<usize> {
        let role = Some((session, Lane::Synchronous));
        let same = |place: &Option<Connection>| place.as_ref().is_some_and(|c| c.role == role);
        self.connections.iter().position(same)
    }

    pub(crate) fn who_of(&self, session: SessionId) -> Who {
        let number = self.synchronous(session);
        let who = number.map(|number| self.who(number)).unwrap_or_default();
        Who {
            session: Some(session),
            ..who
        }
    }

    pub(crate) fn instrument_done(&mut self, done: Done) {
        self.status_is(done.status);
        let session = self.sessions.get_mut(&done.session);
        let Some(session) = session.filter(|session| session.knows(done.ticket)) else {
            if let Ok(Some(answer)) = &done.answer {
                let text = describe::text(answer);
                let who = self.who_of(done.session);
                self.say(who, || {
                    format!("answer {text} dropped: nobody waits for it")
                });
            }
            return;
        };
        let fault = done.answer.as_ref().err().copied();
        if session.question == Some(done.ticket) {
            session.question = None;
            let answer = done.answer.ok().flatten();
            session.answer = answer.map(|bytes| Answer { bytes, sent: 0 });
        } else {
            session.backlog = session.backlog.saturating_sub(done.cost);
        }
        if let Some(fault) = fault {
            let who = self.who_of(done.session);
            self.say(who, || format!("instrument: {fault}"));
        }
    }

    fn status_is(&mut self, status: u8) {
        if status != self.status {
            self.status = status;
            self.server.status(status);
            self.say(Who::default(), || format!("status byte is {status:02x}"));
        }
    }

    /// Sends on every answer that is not yet sent whole.
    pub(crate) fn send_answers(&mut self) {
        let unsent = self.sessions.iter().filter(|(_, s)| s.answer.is_some());
        let unsent: Vec<SessionId> = unsent.map(|(session, _)| *session).collect();
        for session in unsent {
            while self.send_piece(session) {}
        }
    }

    /// Sends the next Data, or the DataEND; true if there is more to send now.
    fn send_piece(&mut self, session: SessionId) -> bool {
        let number = self.synchronous(session);
        let room = number.and_then(|number| self.connections[number].as_ref());
        let Some(state) = self.sessions.get_mut(&session) else {
            return false;
        };
        let Some(answer) = &mut state.answer else {
            return false;
        };
        if !room.is_some_and(Connection::has_room) {
            return false;
        }
        let size = match self.server.client_size(session) {
            Ok(size) => size.min(PAYLOAD as u64) as usize,
            Err(refusal) => {
                self.lost(session, refusal.reason());
                return false;
            }
        };
        let left = &answer.bytes[answer.sent..];
        let piece = &left[..left.len().min(size)];
        let end = piece.len() == left.len();
        if piece.is_empty() && !end {
            self.lost(session, "the client takes no payload");
            return false;
        }
        answer.sent += piece.len();
        let shown = room.map_or(&[][..], |connection| &connection.unread);
        match self.server.answer(session, piece, end, shown) {
            Ok(Answered::Sent(frames)) => {
                let output = kept(frames);
                self.sent(session, &output, end);
            }
            Ok(Answered::Withheld(frames)) => {
                let output = kept(frames);
                self.withheld(session, &output);
            }
            Err(refusal) => self.lost(session, refusal.reason()),
        }
        !end
    }

    /// The session's next message has come before the end of the answer: the rest is not sent.
    fn withheld(&mut self, session: SessionId, output: &[u8]) {
        self.route(output);
        let state = self.sessions.get_mut(&session);
        let answer = state.and_then(|state| state.answer.take());
        let first = Frames::new(output).next();
        let number = first.map_or(0, |frame| frame.parameter);
        let who = self.who_of(session);
        self.say(who, || {
            let text = answer.map_or(String::new(), |answer| describe::text(&answer.bytes));
            format!("answer {text} withheld: interrupted by {number:08x}")
        });
    }

    fn sent(&mut self, session: SessionId, output: &[u8], end: bool) {
        self.route(output);
        if end {
            self.ended_answer(session, output);
        }
        self.follow_service_request(session, output);
    }

    /// The end of an answer was sent.
    fn ended_answer(&mut self, session: SessionId, output: &[u8]) {
        let answer = self
            .sessions
            .get_mut(&session)
            .and_then(|s| s.answer.take());
        let number = Frames::new(output)
            .next()
            .map_or(0, |frame| frame.parameter);
        let who = self.who_of(session);
        self.say(who, || {
            let text = answer.map_or(String::new(), |answer| describe::text(&answer.bytes));
            format!("answer {number:08x} {text}")
        });
    }

    /// An answer that cannot be sent is an error that the program can see.
    fn lost(&mut self, session: SessionId, why: &str) {
        if let Some(state) = self.sessions.get_mut(&session) {
            state.answer = None;
        }
        let who = self.who_of(session);
        self.say(who, || format!("answer lost: {why}"));
        self.ask(session, Request::Dropped(Fault::TooMuchData));
    }
}
