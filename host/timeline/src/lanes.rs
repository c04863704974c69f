//! From a list to lanes: what each session did and had, from which event to which.

use std::collections::{BTreeMap, BTreeSet};

use reference::event::{frames, Frame};
use reference::lock_model::LockModel;
use reference::lock_view::LockView;
use reference::{Event, Reply};

use crate::list::Entry;

const DATA: u8 = 6;
const DATA_END: u8 = 7;
const TRIGGER: u8 = 12;

/// What lasts.
#[derive(Clone, Copy, Debug, PartialEq, Eq, PartialOrd, Ord)]
pub enum Kind {
    /// The session is there.
    Lives,
    Exclusive,
    Shared,
    /// A lock request waits.
    Waits,
    /// A release waits for the message that it names.
    Stands,
    /// A message of the session is held.
    Held,
}

/// Something that lasted, from the event that began it to the one that ended it.
#[derive(Clone, Debug, PartialEq, Eq)]
pub struct Span {
    pub kind: Kind,
    pub from: usize,
    pub to: usize,
    pub says: String,
}

/// Something that an event did.
#[derive(Clone, Debug, PartialEq, Eq)]
pub struct Mark {
    pub at: usize,
    pub message_id: u32,
    /// An answer of the instrument; otherwise a command that acted.
    pub reading: bool,
}

#[derive(Clone, Debug, Default, PartialEq, Eq)]
pub struct Lane {
    pub spans: Vec<Span>,
    pub marks: Vec<Mark>,
}

/// All lanes by session, and where the clock stood at which event.
#[derive(Debug, Default)]
pub struct Lanes {
    pub sessions: BTreeMap<u16, Lane>,
    pub clock: Vec<(usize, String)>,
    pub events: usize,
    /// The events in words, if they have any.
    pub lines: Vec<String>,
    model: LockModel,
    /// What lasts just now, with the event that began it.
    lasting: BTreeMap<State, usize>,
    /// The message that is held on a connection.
    held: BTreeMap<u32, u32>,
}

/// What a session has after an event.
pub type State = (u16, Kind, String);

/// The parameter of a message, which is the MessageID of a command.
fn message_id(bytes: &[u8]) -> u32 {
    let parameter = bytes.get(4..8).and_then(|bytes| bytes.try_into().ok());
    u32::from_be_bytes(parameter.unwrap_or_default())
}

/// Data or DataEND to a client.
fn is_reading(frame: &Frame) -> bool {
    matches!(frame.kind, DATA | DATA_END)
}

fn text(string: &[u8]) -> String {
    String::from_utf8_lossy(string).into_owned()
}

/// Everything that the lock model says of its sessions.
fn locks(view: &LockView) -> BTreeSet<State> {
    let mut states = BTreeSet::new();
    for session in &view.sessions {
        let number = session.session;
        let (synchronous, other) = (session.synchronous, session.asynchronous);
        let other = other.map_or(String::new(), |other| format!(" and {other}"));
        let channels = format!("connection {synchronous}{other}");
        states.insert((number, Kind::Lives, channels));
        if session.exclusive {
            states.insert((number, Kind::Exclusive, "exclusive".into()));
        }
        if let Some(string) = &session.shared {
            states.insert((number, Kind::Shared, format!("shared \"{}\"", text(string))));
        }
        if let Some(standing) = &session.standing {
            let says = format!("release stands for {:08x}", standing.number);
            states.insert((number, Kind::Stands, says));
        }
    }
    for request in &view.waiting {
        let lock = match &request.string[..] {
            [] => "exclusive".into(),
            string => format!("shared \"{}\"", text(string)),
        };
        let says = format!("waits for {lock} until {} ms", request.deadline);
        states.insert((request.session, Kind::Waits, says));
    }
    states
}

impl Lanes {
    pub fn of(list: &[Entry]) -> Lanes {
        let mut lanes = Lanes::default();
        for (place, entry) in list.iter().enumerate() {
            lanes.event(place, entry);
        }
        lanes.events = list.len();
        lanes.update(list.len(), BTreeSet::new());
        lanes
    }

    fn event(&mut self, place: usize, entry: &Entry) {
        if entry.reply.refusal != 0 {
            return;
        }
        self.messages(place, entry);
        let mut answers = Vec::new();
        self.model.event(&entry.event, &entry.reply, &mut answers);
        let view = self.model.view();
        let reading = format!("{} ms", view.clock);
        if self.clock.last().is_none_or(|(_, last)| *last != reading) {
            self.clock.push((place, reading));
        }
        let mut states = locks(&view);
        for (connection, message_id) in &self.held {
            if let Some(session) = self.model.session_of(*connection) {
                states.insert((session, Kind::Held, format!("{message_id:08x} held")));
            }
        }
        self.update(place, states);
    }

    /// Commands, held messages and answers.
    fn messages(&mut self, place: usize, entry: &Entry) {
        let Entry {
            event,
            reply,
            output,
        } = entry;
        match event {
            Event::Deliver {
                connection, bytes, ..
            } => {
                match reply.outcome {
                    Reply::MORE_NEEDED => {}
                    Reply::HELD => drop(self.held.insert(*connection, message_id(bytes))),
                    _ => drop(self.held.remove(connection)),
                }
                let command = matches!(bytes.get(2), Some(&(DATA | DATA_END | TRIGGER)));
                if command && reply.outcome == Reply::ACTED_ON {
                    self.mark(reply.session as u16, place, message_id(bytes), false);
                }
            }
            Event::Cut { connection, .. } => drop(self.held.remove(connection)),
            Event::Answer { session, .. } => {
                let sent = frames(output).unwrap_or_default();
                for frame in sent
                    .iter()
                    .filter(|frame| reply.withheld == 0 && is_reading(frame))
                {
                    self.mark(*session as u16, place, frame.parameter, true);
                }
            }
            _ => {}
        }
    }

    pub fn mark(&mut self, session: u16, at: usize, message_id: u32, reading: bool) {
        let lane = self.sessions.entry(session).or_default();
        lane.marks.push(Mark {
            at,
            message_id,
            reading,
        });
    }

    /// Ends what does not last any more, and begins what is new.
    pub fn update(&mut self, place: usize, states: BTreeSet<State>) {
        let lasting = std::mem::take(&mut self.lasting).into_iter();
        let (still, over): (BTreeMap<_, _>, BTreeMap<_, _>) =
            lasting.partition(|(state, _)| states.contains(state));
        self.lasting = still;
        for ((session, kind, says), from) in over {
            let lane = self.sessions.entry(session).or_default();
            lane.spans.push(Span {
                kind,
                from,
                to: place,
                says,
            });
        }
        for state in states {
            self.lasting.entry(state).or_insert(place);
        }
    }
}

#[cfg(test)]
mod tests {
    use super::{Kind, Lanes, Mark};
    use crate::list::read;

    const TEXT: &str = include_str!("../lists/three_programs.txt");

    /// The spans of a kind in a session's lane.
    fn spans(lanes: &Lanes, session: u16, kind: Kind) -> Vec<(usize, usize)> {
        let spans = lanes.sessions[&session].spans.iter();
        let wanted = spans.filter(|span| span.kind == kind);
        wanted.map(|span| (span.from, span.to)).collect()
    }

    #[test]
    fn locks_and_waits_are_the_lock_models() {
        let lanes = Lanes::of(&read(TEXT).expect("well formed"));
        assert_eq!(spans(&lanes, 1, Kind::Exclusive), [(13, 22), (40, 42)]);
        assert_eq!(spans(&lanes, 1, Kind::Shared), [(32, 45)]);
        assert_eq!(spans(&lanes, 1, Kind::Waits), [(27, 32)]);
        assert_eq!(spans(&lanes, 2, Kind::Exclusive), [(22, 32)]);
        assert_eq!(spans(&lanes, 2, Kind::Waits), [(16, 22)]);
        assert_eq!(spans(&lanes, 3, Kind::Waits), [(26, 29)], "out of time");
        assert_eq!(spans(&lanes, 3, Kind::Shared), [(34, 47)], "until the cut");
    }

    #[test]
    fn a_message_is_held_until_it_acts() {
        let lanes = Lanes::of(&read(TEXT).expect("well formed"));
        assert_eq!(spans(&lanes, 2, Kind::Held), [(17, 23)]);
        assert_eq!(spans(&lanes, 3, Kind::Held), [(30, 35), (41, 43)]);
        assert!(spans(&lanes, 1, Kind::Held).is_empty());
    }

    #[test]
    fn readings_have_the_number_of_their_command() {
        let lanes = Lanes::of(&read(TEXT).expect("well formed"));
        let mark = |at, message_id, reading| Mark {
            at,
            message_id,
            reading,
        };
        let of_three = [
            mark(35, 0xffff_ff00, false),
            mark(36, 0xffff_ff00, true),
            mark(43, 0xffff_ff02, false),
            mark(44, 0xffff_ff02, true),
        ];
        assert_eq!(lanes.sessions[&3].marks, of_three);
    }

    #[test]
    fn refused_calls_draw_nothing() {
        let lanes =
            Lanes::of(&read("cut 9 -> refused 1\nanswer 7 - end -> refused 8\n").expect("two"));
        assert!(lanes.sessions.is_empty());
        assert_eq!(lanes.events, 2);
    }
}
