//! Connections that come, that end, and that take too long to begin or to end.

use std::net::{Shutdown, SocketAddr, TcpStream};
use std::time::{Duration, Instant};

use hislip::Frames;
use query::names;

use crate::connection::{Connection, Lane};
use crate::describe::kept;
use crate::gateway::{Gateway, Who};
use crate::refuse::TOO_MANY;
use crate::session::SessionId;

/// How long a newcomer waits for a place that a program has left but not yet freed: its thread has
/// only to read the end of the stream.
const SEAT_WITHIN: Duration = Duration::from_millis(500);
const MOST_NEWCOMERS: usize = 64;
/// How long a session whose asynchronous channel has ended waits for the end of the other: if it is to
/// be seen already, and if not.
const END_IS_COMING: Duration = Duration::from_secs(2);
const END_MAY_COME: Duration = Duration::from_millis(50);

const CLOSED: &str = "the program closed it";
const NOT_INITIALIZED: &str = "not initialized in time";

/// A program that waits for a place.
pub struct Newcomer {
    stream: TcpStream,
    peer: SocketAddr,
    pub until: Instant,
}

impl Gateway {
    fn free_number(&self) -> Option<usize> {
        self.connections.iter().position(Option::is_none)
    }

    /// Some program has hung up, and its end has not yet been read.
    pub(crate) fn somebody_hung_up(&self) -> bool {
        self.connections.iter().flatten().any(Connection::hung_up)
    }

    /// A new socket gets a number, waits for one that is about to be free, or is refused.
    pub(crate) fn arrive(&mut self, stream: TcpStream, peer: SocketAddr) {
        if let Some(number) = self.free_number() {
            self.admit(number, stream, peer);
        } else if self.newcomers.len() < MOST_NEWCOMERS && self.somebody_hung_up() {
            self.newcomers.push_back(Newcomer {
                stream,
                peer,
                until: Instant::now() + SEAT_WITHIN,
            });
        } else {
            self.refuse(stream, peer);
        }
    }

    pub(crate) fn seat_newcomers(&mut self) {
        let now = Instant::now();
        while let Some(newcomer) = self.newcomers.pop_front() {
            match self.free_number() {
                Some(number) => self.admit(number, newcomer.stream, newcomer.peer),
                None if newcomer.until <= now => self.refuse(newcomer.stream, newcomer.peer),
                None => return self.newcomers.push_front(newcomer),
            }
        }
    }

    fn refuse(&mut self, stream: TcpStream, peer: SocketAddr) {
        let told = self.refusals.tell(stream);
        let (peer, session) = (Some(peer), None);
        self.say(Who { peer, session }, || match told {
            true => {
                let meaning = names::of_fatal_error(TOO_MANY);
                format!("FatalError {TOO_MANY} sent: {meaning}")
            }
            false => "closed: too many programs are being refused".into(),
        });
    }

    fn admit(&mut self, number: usize, stream: TcpStream, peer: SocketAddr) {
        let (id, by) = (self.next_id, Instant::now() + self.initialize_within);
        self.next_id += 1;
        let who = Who {
            peer: Some(peer),
            session: None,
        };
        let socket = stream.try_clone();
        let started = Connection::start(id, stream, peer, by, &self.events);
        let opened = started.map_err(|error| error.to_string());
        let opened = opened.and_then(|connection| {
            let opened = self.server.open(number as u32);
            opened
                .map(|()| connection)
                .map_err(|refusal| refusal.to_string())
        });
        match opened {
            Ok(connection) => {
                self.connections[number] = Some(connection);
                self.say(who, || format!("connection {number} opens"));
            }
            Err(why) => {
                let _ = socket.map(|socket| socket.shutdown(Shutdown::Both));
                self.say(who, || format!("connection {number} not opened: {why}"));
            }
        }
    }

    /// A connection ended: the server frees its session, and others may be granted its locks.
    pub(crate) fn cut(&mut self, number: usize, why: &str) {
        let who = self.who(number);
        let output = self.server.cut(number as u32).map(kept);
        self.close(number, who.session);
        match output {
            Ok(output) => {
                let later = self.later_answers(Frames::new(&output));
                self.say(who, || format!("connection {number} cut: {why}"));
                self.route(&output);
                self.say_each(later);
            }
            Err(refusal) => self.say(who, || format!("connection {number} cut: {refusal}")),
        }
    }

    /// Closes the sockets of a session, or of a connection that had none.
    pub(crate) fn close(&mut self, number: usize, session: Option<SessionId>) {
        for (other, place) in self.connections.iter_mut().enumerate() {
            let same = |c: &mut Connection| session.is_some() && c.session() == session;
            drop(place.take_if(|c| other == number || same(c)));
        }
        if let Some(session) = session {
            self.sessions.remove(&session);
            self.locks.gone(session);
        }
    }

    /// A program closed its side of a connection. Its synchronous messages may still be on their way
    /// when the asynchronous channel ends: they are waited for.
    pub(crate) fn ended(&mut self, number: usize) {
        let Some(connection) = &mut self.connections[number] else {
            return;
        };
        match connection.role {
            Some((_, Lane::Asynchronous)) => connection.ended = Some(Instant::now()),
            _ => self.cut(number, CLOSED),
        }
    }

    /// Connections that will be cut if nothing happens: when, and why.
    pub(crate) fn to_be_cut(&self) -> impl Iterator<Item = (usize, Instant, &'static str)> + '_ {
        let places = self.connections.iter().enumerate();
        places.filter_map(|(number, place)| {
            let connection = place.as_ref()?;
            let session = connection.session().and_then(|s| self.sessions.get(&s));
            match connection.ended {
                Some(at) => Some((number, at + self.patience_after_end(connection), CLOSED)),
                None if session.is_some_and(|session| session.whole) => None,
                None => Some((number, connection.initialized_by, NOT_INITIALIZED)),
            }
        })
    }

    /// How long the synchronous channel has to end after the asynchronous one.
    fn patience_after_end(&self, asynchronous: &Connection) -> Duration {
        let session = asynchronous.session();
        let mut others = self.connections.iter().flatten();
        let other = others.find(|c| c.session() == session && c.id != asynchronous.id);
        match other.is_some_and(Connection::hung_up) {
            true => END_IS_COMING,
            false => END_MAY_COME,
        }
    }

    pub(crate) fn cut_overdue(&mut self) {
        let now = Instant::now();
        let overdue = self.to_be_cut().filter(|(_, at, _)| *at <= now);
        for (number, _, why) in overdue.collect::<Vec<_>>() {
            if self.connections[number].is_some() {
                self.cut(number, why);
            }
        }
    }
}
