//! The gateway's log (`gateway --log FILE`) as lanes.
//!
//! ```text
//! 2026-11-16T06:50:26.807Z 127.0.0.1:55264 session 1 DataEND ffffff04 "READ?"; locks: 1 exclusive, 2 waits, 1 lock 1 at 2026-11-16T06:50:19.311Z
//! 2026-11-16T06:50:26.807Z 127.0.0.1:55264 session 1 answer ffffff04 "+1.25"; locks: 1 exclusive, 2 waits, 1 lock 1 at 2026-11-16T06:50:19.311Z
//! 2026-11-16T06:50:27.119Z gateway ends: SIGTERM; 4 connections cut
//! ```
//!
//! Behind the last `;` stands who holds a lock after the event, who waits and whose release stands, then of
//! each holder how many locks it was granted and when the last one; a text in quotes has its own quotes
//! escaped.

use std::collections::{BTreeMap, BTreeSet};

use crate::lanes::{Kind, Lanes, State};
use crate::words::{number, outside_quotes};

/// From the year to the Z.
const TIME: usize = 24;
/// From the year to the tenth of a second: so often the picture names the time.
const TENTH: usize = 21;
/// Where the time of day begins.
const HOUR: usize = 11;

/// The lines to draw, by their times as text: from the first moment, and before the second.
#[derive(Clone, Copy, Debug, Default)]
pub struct Window<'a> {
    /// `2026-11-16T06:50`, or as exact as one likes; empty for the beginning.
    pub from: &'a str,
    /// The same; none for the end.
    pub to: Option<&'a str>,
}

/// Whether a text begins as a log does, and not as a list.
pub fn is_log(text: &str) -> bool {
    text.lines()
        .next()
        .is_some_and(|line| timed(line).is_some())
}

/// A line's time and the rest of it.
fn timed(line: &str) -> Option<(&str, &str)> {
    let (time, rest) = line.split_once(' ')?;
    let form = |place: usize, byte: u8| time.as_bytes().get(place) == Some(&byte);
    let formed = time.len() == TIME && form(4, b'-') && form(HOUR - 1, b'T');
    (formed && time.is_ascii() && time.ends_with('Z')).then_some((time, rest))
}

/// What a line is about.
enum Told<'a> {
    /// The gateway begins or ends: no session is there.
    Gateway,
    /// So many lines are missing here.
    Dropped(u64),
    Event(Event<'a>),
}

struct Event<'a> {
    peer: &'a str,
    session: Option<u16>,
    what: &'a str,
    locks: BTreeSet<State>,
}

fn told(rest: &str) -> Result<Told<'_>, String> {
    if rest.starts_with("gateway ") {
        return Ok(Told::Gateway);
    }
    if let Some(count) = rest.strip_suffix(" lines dropped") {
        return Ok(Told::Dropped(number(count)?));
    }
    let (peer, rest) = rest.split_once(' ').ok_or("no session")?;
    let (session, rest) = match (rest.strip_prefix("- "), rest.strip_prefix("session ")) {
        (Some(rest), _) => (None, rest),
        (None, Some(rest)) => {
            let (session, rest) = rest.split_once(' ').ok_or("no event")?;
            (Some(number(session)?), rest)
        }
        (None, None) => return Err("no session".into()),
    };
    let parts = outside_quotes(rest, "; ");
    let (locks, what) = match &parts[..] {
        [.., locks] if parts.len() > 1 => (*locks, &rest[..rest.len() - locks.len() - 2]),
        _ => return Err("no locks behind `;`".into()),
    };
    let locks = states(locks)?;
    Ok(Told::Event(Event {
        peer,
        session,
        what,
        locks,
    }))
}

/// `no locks`, or `locks: 1 exclusive, 2 shared "cal", 3 waits, 1 release stands for ffffff04`, and behind
/// them of each holder when its last lock was granted, which is not drawn: `1 lock 2 at TIME`.
fn states(text: &str) -> Result<BTreeSet<State>, String> {
    match text.strip_prefix("locks: ") {
        Some(list) => {
            let parts = outside_quotes(list, ", ").into_iter();
            parts.filter_map(|part| state(part).transpose()).collect()
        }
        None if text == "no locks" => Ok(BTreeSet::new()),
        None => Err(format!("`{text}` does not tell locks")),
    }
}

fn state(part: &str) -> Result<Option<State>, String> {
    let wrong = || format!("`{part}` is no lock");
    let (session, says) = part.split_once(' ').ok_or_else(wrong)?;
    let kind = match says {
        "exclusive" => Kind::Exclusive,
        "waits" => Kind::Waits,
        _ if says.starts_with("shared ") => Kind::Shared,
        _ if says.starts_with("release stands ") => Kind::Stands,
        _ if says.starts_with("lock ") => return Ok(None),
        _ => return Err(wrong()),
    };
    Ok(Some((number(session)?, kind, says.into())))
}

/// A message or an answer with its number.
enum Numbered {
    /// It acted.
    Command(u32),
    Reading(u32),
    Held(u32),
    /// It was ignored, or an Error was sent.
    Gone,
}

fn numbered(what: &str) -> Option<Numbered> {
    let mut words = what.splitn(3, ' ');
    let (kind, id, rest) = (words.next()?, words.next()?, words.next());
    let acted = rest.map_or(kind == "Trigger", |rest| rest.starts_with('"'));
    let id = u32::from_str_radix(id, 16).ok().filter(|_| id.len() == 8);
    match (kind, id) {
        ("Data" | "DataEND" | "Trigger", Some(id)) if acted => Some(Numbered::Command(id)),
        ("Data" | "DataEND" | "Trigger", Some(id)) if rest == Some("held") => {
            Some(Numbered::Held(id))
        }
        ("Data" | "DataEND" | "Trigger", _) => Some(Numbered::Gone),
        ("answer", Some(id)) => Some(Numbered::Reading(id)),
        _ => None,
    }
}

/// Whether the session is over with this line: a connection cut, a FatalError, the program's own word.
fn ends(what: &str) -> bool {
    match what.split_once(": ") {
        Some((label, why)) if !label.contains('"') => {
            (label.starts_with("connection ") && label.ends_with(" cut"))
                || why.starts_with("FatalError ")
                || why == "session closed by the program"
        }
        _ => false,
    }
}

/// A log that is being read.
#[derive(Default)]
struct Reading {
    lanes: Lanes,
    /// Sessions, each with the address that its first line names.
    alive: BTreeMap<u16, String>,
    /// Each session's message that is held.
    held: BTreeMap<u16, u32>,
    locks: BTreeSet<State>,
    dropped: u64,
}

impl Reading {
    fn line(&mut self, time: &str, rest: &str, drawn: bool) -> Result<(), String> {
        match told(rest)? {
            Told::Gateway => *self = self.restarted(),
            Told::Dropped(count) => self.dropped += count,
            Told::Event(event) => self.event(event, drawn),
        }
        if drawn {
            self.draw(time, rest);
        }
        Ok(())
    }

    /// What was drawn stays.
    fn restarted(&mut self) -> Reading {
        Reading {
            lanes: std::mem::take(&mut self.lanes),
            dropped: self.dropped,
            ..Reading::default()
        }
    }

    fn event(&mut self, event: Event, drawn: bool) {
        self.locks = event.locks;
        let Some(session) = event.session else {
            return;
        };
        if ends(event.what) {
            self.alive.remove(&session);
            self.held.remove(&session);
        } else if event.peer != "-" {
            let first = || event.peer.into();
            self.alive.entry(session).or_insert_with(first);
        }
        let at = self.lanes.lines.len();
        match numbered(event.what) {
            Some(Numbered::Held(id)) => drop(self.held.insert(session, id)),
            Some(Numbered::Gone) => drop(self.held.remove(&session)),
            Some(Numbered::Command(id)) => {
                self.held.remove(&session);
                if drawn {
                    self.lanes.mark(session, at, id, false);
                }
            }
            Some(Numbered::Reading(id)) if drawn => self.lanes.mark(session, at, id, true),
            Some(Numbered::Reading(_)) | None => {}
        }
    }

    fn draw(&mut self, time: &str, rest: &str) {
        let at = self.lanes.lines.len();
        let before = self.lanes.lines.last();
        if before.is_none_or(|line| !line.starts_with(&time[..TENTH])) {
            self.lanes.clock.push((at, time[HOUR..].into()));
        }
        let mut states = self.locks.clone();
        for (session, peer) in &self.alive {
            states.insert((*session, Kind::Lives, peer.clone()));
        }
        for (session, id) in &self.held {
            states.insert((*session, Kind::Held, format!("{id:08x} held")));
        }
        self.lanes.lines.push(format!("{time} {rest}"));
        self.lanes.update(at, states);
    }
}

/// A log's lanes, and how many lines it says are missing.
pub(crate) struct Log {
    pub lanes: Lanes,
    pub dropped: u64,
}

/// Reads a log; the error names the line. A last line without its end was torn, and is left out.
pub(crate) fn read(text: &str, window: Window) -> Result<Log, String> {
    let mut reading = Reading::default();
    for (place, line) in text.split_inclusive('\n').enumerate() {
        let Some(line) = line.strip_suffix('\n') else {
            break;
        };
        let wrong = |what: String| format!("line {}: {what}", place + 1);
        let timed = timed(line).ok_or("no time".into());
        let (time, rest) = timed.map_err(wrong)?;
        if window.to.is_some_and(|to| time >= to) {
            break;
        }
        reading
            .line(time, rest, time >= window.from)
            .map_err(wrong)?;
    }
    let Reading {
        mut lanes, dropped, ..
    } = reading;
    lanes.events = lanes.lines.len();
    lanes.update(lanes.events, BTreeSet::new());
    Ok(Log { lanes, dropped })
}

#[cfg(test)]
mod tests;
