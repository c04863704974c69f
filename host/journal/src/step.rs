//! What an entry did, in the words of the gateway's log.

use query::message::Message;
use query::{names, words};
use reference::commands::lines;
use reference::event::{Event, Frame};
use reference::{Reply, Watch};

use crate::walk::Step;

impl Step<'_> {
    /// The message of a delivery that was acted on.
    pub fn acted(&self) -> Option<Message> {
        match &self.event {
            Event::Deliver { bytes, .. } if self.reply.outcome == Reply::ACTED_ON => {
                Message::read(&mut &bytes[..]).ok()
            }
            _ => None,
        }
    }

    pub fn closed(&self) -> bool {
        let delivery = matches!(self.event, Event::Deliver { .. });
        let cut = matches!(self.event, Event::Cut { .. });
        cut || (delivery && self.reply.outcome == Reply::CLOSED)
    }

    pub fn interrupted(&self) -> Option<u32> {
        let told = self.sent(names::INTERRUPTED);
        told.map(|frame| frame.parameter)
    }

    /// The first frame of a type.
    pub fn sent(&self, kind: u8) -> Option<&Frame<'_>> {
        self.frames.iter().find(|frame| frame.kind == kind)
    }

    /// One line, without what everybody holds.
    pub fn describe(&self) -> String {
        let what = match &self.event {
            Event::Open { connection } => format!("connection {connection} opened"),
            Event::Cut { connection, .. } => format!("{}connection {connection} cut", self.who()),
            Event::Clock { milliseconds, .. } => format!("clock {milliseconds} ms"),
            Event::Status { status } => format!("status byte {status:02x}"),
            Event::Answer { payload, end, .. } => self.answer(payload, *end),
            Event::Patterns { text } => allowed(text),
            Event::Watch { watch, .. } => format!("{}watch {}", self.who(), limits(*watch)),
            Event::Deliver {
                connection, bytes, ..
            } => {
                let who = match self.session {
                    Some(_) => self.who(),
                    None => format!("connection {connection} "),
                };
                format!("{who}{}", self.delivery(*connection, bytes))
            }
        };
        what + &self.later_answers()
    }

    fn who(&self) -> String {
        let session = self.session.map(|session| format!("session {session} "));
        session.unwrap_or_default()
    }

    fn answer(&self, payload: &[u8], end: u8) -> String {
        let (who, text) = (self.who(), words::text(payload));
        if let (1, Some(number)) = (self.reply.withheld, self.interrupted()) {
            return format!("{who}answer {text} withheld: interrupted by {number:08x}");
        }
        let number = self.frames.first().map_or(0, |frame| frame.parameter);
        let more = if end == 0 { ", more to come" } else { "" };
        let service = self.sent(names::ASYNC_SERVICE_REQUEST);
        let service =
            service.map(|frame| format!("; service requested, status byte {:02x}", frame.code));
        format!(
            "{who}answer {number:08x} {text}{more}{}",
            service.unwrap_or_default()
        )
    }

    fn delivery(&self, connection: u32, bytes: &[u8]) -> String {
        let label = words::label(bytes);
        let told = || {
            let mut sent = self.frames.iter();
            sent.find_map(|frame| words::told(frame.kind, frame.code))
        };
        match self.reply.outcome {
            Reply::MORE_NEEDED => {
                let missing = self.reply.missing;
                format!("{} bytes shown, {missing} more needed", bytes.len())
            }
            Reply::SKIPPED => format!("{} bytes skipped", self.reply.taken),
            Reply::HELD => format!("{label} held"),
            Reply::IGNORED => format!("{label} ignored"),
            Reply::ACTED_ON => self.message(connection),
            _ => {
                let told = told().unwrap_or_else(|| "session closed by the program".into());
                format!("{label}: {told}")
            }
        }
    }

    fn message(&self, connection: u32) -> String {
        let Some(acted) = self.acted() else {
            return "no message".into();
        };
        let reply = self.direct(connection).map(|frame| frame.code);
        let (code, number) = (acted.code, acted.parameter);
        let what = words::acted_on(acted.kind, code, number, &acted.payload, reply);
        match self.interrupted() {
            Some(number) => format!("{what}; interrupted by {number:08x}: its RMT-delivered"),
            None => what,
        }
    }

    /// The direct reply to a message; that to a lock message may be another session's answer.
    fn direct(&self, connection: u32) -> Option<&Frame<'_>> {
        let own = |frame: &&Frame| u32::from(frame.connection) == connection;
        self.frames.first().filter(own)
    }

    /// Lock answers to requests that waited and releases that stood.
    fn later_answers(&self) -> String {
        let lock = |message: Message| message.kind == names::ASYNC_LOCK;
        let direct = match (&self.event, self.acted().is_some_and(lock)) {
            (Event::Deliver { connection, .. }, true) => self.direct(*connection).is_some(),
            _ => false,
        };
        let answers = self.frames.iter().skip(usize::from(direct));
        let answers = answers.filter(|frame| frame.kind == names::ASYNC_LOCK_RESPONSE);
        let session_of = |frame: &Frame| {
            let mut all = self.view.sessions.iter();
            all.find(|entry| entry.asynchronous == Some(frame.connection))
                .map_or("a session".into(), |entry| {
                    format!("session {}", entry.session)
                })
        };
        answers
            .map(|frame| {
                let name = names::of_type(frame.kind);
                format!("; {} {name} {}", session_of(frame), frame.code)
            })
            .collect()
    }
}

fn limits(watch: Watch) -> String {
    match watch {
        Watch::Off => "off".into(),
        Watch::Above { limit } => format!("above {}", limit.0),
        Watch::Outside { low, high } => format!("outside {} to {}", low.0, high.0),
    }
}

fn allowed(text: &[u8]) -> String {
    match lines(text)[..] {
        [] => "no command allowed".into(),
        ref list => {
            let list: Vec<_> = list.iter().map(|pattern| words::text(pattern)).collect();
            format!("commands allowed: {}", list.join(" "))
        }
    }
}
