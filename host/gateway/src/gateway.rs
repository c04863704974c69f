//! The thread that owns the server: it waits for events, or for the next deadline, and for nothing
//! else. What it does for each kind of event stands in `arrive`, `deliver` and `answer`.

use std::collections::{BTreeMap, VecDeque};
use std::net::{SocketAddr, TcpListener, ToSocketAddrs};
use std::path::PathBuf;
use std::sync::mpsc::{channel, Receiver, Sender};
use std::time::{Duration, Instant, SystemTime};

use hislip::{Frames, Mode, Watch, CONNECTIONS};
use query::names;

use crate::arrive::Newcomer;
use crate::connection::Connection;
use crate::describe::kept;
use crate::event::{Event, Id};
use crate::instrument::{Bench, Instrument, Ticket};
use crate::listen::Listening;
use crate::locks::{Followed, Later};
use crate::log::Log;
use crate::recorder::Recorder;
use crate::refuse::Refusals;
use crate::session::{Session, SessionId};
use crate::utc;

/// How long the last bytes have to get out when the gateway ends.
const ENDING: Duration = Duration::from_millis(500);

/// What a gateway is started with.
pub struct Settings {
    /// ADDR:PORT; port 0 takes a free one.
    pub listen: String,
    /// Two letters told to programs.
    pub vendor: [u8; 2],
    /// The mode that sessions start in.
    pub prefers: Mode,
    /// A file that events are kept in.
    pub journal: Option<PathBuf>,
    /// Time for a connection's session to have both its channels.
    pub initialize_within: Duration,
    /// Time for the instrument to do one request.
    pub instrument_within: Duration,
    /// The watch over every session's readings.
    pub watch: Watch,
    /// Patterns of the commands that are allowed; without a list, all are.
    pub allow: Option<Vec<Vec<u8>>>,
}

impl Default for Settings {
    fn default() -> Settings {
        Settings {
            listen: "127.0.0.1:4880".into(),
            vendor: *b"EX",
            prefers: Mode::Synchronized,
            journal: None,
            initialize_within: Duration::from_secs(10),
            instrument_within: Duration::from_secs(10),
            watch: Watch::Off,
            allow: None,
        }
    }
}

/// Whom a line in the log is about.
#[derive(Clone, Copy, Default)]
pub struct Who {
    pub peer: Option<SocketAddr>,
    pub session: Option<SessionId>,
}

/// A gateway that listens; [`Gateway::run`] serves.
pub struct Gateway {
    pub(crate) server: Recorder,
    start: Instant,
    /// The same by the calendar, for the log.
    started: SystemTime,
    queue: Receiver<Event>,
    pub(crate) events: Sender<Event>,
    pub(crate) connections: [Option<Connection>; CONNECTIONS],
    pub(crate) next_id: Id,
    /// Programs that will get a place as soon as one that hung up has left it.
    pub(crate) newcomers: VecDeque<Newcomer>,
    pub(crate) refusals: Refusals,
    pub(crate) sessions: BTreeMap<SessionId, Session>,
    pub(crate) locks: Followed,
    pub(crate) bench: Bench,
    pub(crate) trigger_answers: bool,
    pub(crate) next_ticket: Ticket,
    /// The instrument's status byte as the server knows it.
    pub(crate) status: u8,
    pub(crate) initialize_within: Duration,
    pub(crate) watch: Watch,
    listening: Listening,
    address: SocketAddr,
    log: Log,
}

/// Ends a gateway from another thread.
#[derive(Clone)]
pub struct Stopper(Sender<Event>);

impl Stopper {
    /// It ends in order, and its last line says why.
    pub fn stop(&self, why: &'static str) {
        let _ = self.0.send(Event::Stop(why));
    }
}

fn bind(listen: &str) -> std::io::Result<TcpListener> {
    let addresses: Vec<SocketAddr> = listen.to_socket_addrs()?.collect();
    TcpListener::bind(&addresses[..])
}

/// A fresh server with the allowed commands of the settings; with a journal, its first entry has them.
fn server(settings: &Settings) -> std::io::Result<Recorder> {
    let journal = settings.journal.as_deref();
    let mut server = Recorder::new(settings.vendor, settings.prefers, journal)?;
    if let Some(patterns) = &settings.allow {
        let set = server.patterns(patterns);
        set.map_err(|bad| std::io::Error::new(std::io::ErrorKind::InvalidInput, bad))?;
    }
    Ok(server)
}

impl Gateway {
    /// Listens; programs are served when it runs.
    pub fn new(
        settings: &Settings,
        instrument: Box<dyn Instrument>,
        log: Log,
    ) -> std::io::Result<Gateway> {
        let listener = bind(&settings.listen)?;
        let address = listener.local_addr()?;
        let server = server(settings)?;
        let (events, queue) = channel();
        let (name, trigger_answers) = (instrument.name(), instrument.trigger_answers());
        log.say(|| format!("gateway listens on {address} for {name}"));
        Ok(Gateway {
            server,
            start: Instant::now(),
            started: SystemTime::now(),
            queue,
            connections: [const { None }; CONNECTIONS],
            next_id: 0,
            newcomers: VecDeque::new(),
            refusals: Refusals::default(),
            sessions: BTreeMap::new(),
            locks: Followed::default(),
            bench: Bench::start(instrument, settings.instrument_within, events.clone())?,
            trigger_answers,
            next_ticket: 0,
            status: 0,
            initialize_within: settings.initialize_within,
            watch: settings.watch,
            listening: Listening::start(listener, events.clone())?,
            address,
            log,
            events,
        })
    }

    /// Where it listens, with the port that it got.
    pub fn address(&self) -> SocketAddr {
        self.address
    }

    /// For another thread, to end it.
    pub fn stopper(&self) -> Stopper {
        Stopper(self.events.clone())
    }

    /// Serves until it is stopped.
    pub fn run(mut self) {
        let why = loop {
            let event = self.wait();
            self.tick();
            match event {
                Some(Event::Stop(why)) => break why,
                Some(event) => self.take(event),
                None => {}
            }
            self.cut_overdue();
            self.seat_newcomers();
            self.send_answers();
            self.deliver_all();
            if let Some(trouble) = self.server.trouble() {
                self.say(Who::default(), || trouble);
            }
        };
        self.end(why);
    }

    /// The next event; None if a deadline came first.
    fn wait(&self) -> Option<Event> {
        let Some(deadline) = self.next_deadline() else {
            return self.queue.recv().ok();
        };
        let left = deadline.saturating_duration_since(Instant::now());
        self.queue.recv_timeout(left).ok()
    }

    /// The first lock request to run out of time, connection to be cut, or newcomer to be seated.
    fn next_deadline(&self) -> Option<Instant> {
        let lock = self.server.deadline();
        let lock = lock.map(|due| self.start + Duration::from_millis(due.milliseconds));
        let newcomer = self.newcomers.front().map(|newcomer| newcomer.until);
        let cut = self.to_be_cut().map(|(_, at, _)| at).min();
        [lock, newcomer, cut].into_iter().flatten().min()
    }

    fn take(&mut self, event: Event) {
        match event {
            Event::Newcomer { stream, peer } => self.arrive(stream, peer),
            Event::Bytes { connection, bytes } => {
                if let Some(number) = self.number_of(connection) {
                    self.received(number, &bytes);
                }
            }
            Event::Ended { connection } => {
                if let Some(number) = self.number_of(connection) {
                    self.ended(number);
                }
            }
            Event::Failed { connection, why } => {
                if let Some(number) = self.number_of(connection) {
                    self.cut(number, &why);
                }
            }
            Event::Instrument(done) => self.instrument_done(done),
            Event::Written { .. } | Event::Stop(_) => {}
        }
    }

    fn number_of(&self, id: Id) -> Option<usize> {
        let same = |place: &Option<Connection>| place.as_ref().is_some_and(|c| c.id == id);
        self.connections.iter().position(same)
    }

    /// Tells the server the time before each event, so that a request waits from when it came.
    fn tick(&mut self) {
        let now = self.start.elapsed().as_millis() as u64;
        match self.server.clock(now).map(kept) {
            Ok(output) => {
                self.route(&output);
                let later = self.later_answers(Frames::new(&output));
                self.say_each(later);
            }
            Err(refusal) => self.say(Who::default(), || format!("clock {now}: {refusal}")),
        }
    }

    /// Follows lock answers that are not the direct reply to a lock message, and returns what to say of
    /// them. All are followed before anything is said: the server tells its holders after the whole event.
    #[must_use]
    pub(crate) fn later_answers(&mut self, frames: Frames) -> Vec<(Who, String)> {
        let mut later = Vec::new();
        for frame in frames.filter(|frame| frame.kind == names::ASYNC_LOCK_RESPONSE) {
            let who = self.who(frame.connection.into());
            if let Some(session) = who.session {
                let after = match self.locks.answered(session, frame.code) {
                    Later::Request => "waiting",
                    Later::Release => "standing",
                };
                let name = names::of_type(frame.kind);
                later.push((who, format!("{name} {} after {after}", frame.code)));
            }
        }
        later
    }

    pub(crate) fn say_each(&self, lines: Vec<(Who, String)>) {
        for (who, what) in lines {
            self.say(who, || what);
        }
    }

    pub(crate) fn route(&mut self, output: &[u8]) {
        for frame in Frames::new(output) {
            if let Some(Some(connection)) = self.connections.get(usize::from(frame.connection)) {
                connection.send(frame.message);
            }
        }
    }

    pub(crate) fn who(&self, number: usize) -> Who {
        match self.connections.get(number) {
            Some(Some(connection)) => Who {
                peer: Some(connection.peer),
                session: connection.session(),
            },
            _ => Who::default(),
        }
    }

    /// One line in the log.
    pub(crate) fn say(&self, who: Who, what: impl FnOnce() -> String) {
        self.log.say(|| {
            let peer = who.peer.map_or("-".into(), |peer| peer.to_string());
            let session = who
                .session
                .map_or("-".into(), |number| format!("session {number}"));
            let time = |reading| utc::of(self.started + Duration::from_millis(reading));
            let locks = self.locks.describe(&self.server.holders(), time);
            format!("{peer} {session} {}; {locks}", what())
        });
    }

    /// Closes every socket in order and says so.
    fn end(mut self, why: &str) {
        drop(self.listening);
        let mut open: Vec<Id> = self.connections.iter().flatten().map(|c| c.id).collect();
        let count = open.len();
        self.connections = [const { None }; CONNECTIONS];
        let until = Instant::now() + ENDING;
        while !open.is_empty() {
            let left = until.saturating_duration_since(Instant::now());
            match self.queue.recv_timeout(left) {
                Ok(Event::Ended { connection } | Event::Failed { connection, .. }) => {
                    open.retain(|id| *id != connection);
                }
                Ok(_) => {}
                Err(_) => break,
            }
        }
        self.log
            .say(|| format!("gateway ends: {why}; {count} connections cut"));
        self.log.flush();
    }
}
