//! From entry to entry with a server and a lock model beside it.

use reference::event::{frames, Event, Frame};
use reference::lock_model::LockModel;
use reference::lock_view::LockView;
use reference::verifier::{Fault, Replay};
use reference::{Fresh, Reply};

/// What an entry did.
pub struct Step<'a> {
    /// Counted from 0.
    pub entry: u64,
    pub event: Event,
    pub reply: Reply,
    pub frames: Vec<Frame<'a>>,
    /// Whose event it was, if anybody's.
    pub session: Option<u16>,
    /// After the event.
    pub view: LockView,
}

pub struct Walk {
    replay: Replay,
    model: LockModel,
    passed: u64,
}

impl Walk {
    pub fn new(fresh: Fresh) -> Walk {
        Walk {
            replay: Replay::new(fresh),
            model: LockModel::new(),
            passed: 0,
        }
    }

    /// The next entry's body, if it is right.
    pub fn body<'a>(&mut self, body: &'a [u8]) -> Result<Step<'a>, Fault> {
        let replayed = self.replay.body(body)?;
        let (event, reply) = (replayed.event, replayed.reply);
        let session = self.session(&event, &reply);
        self.model.event(&event, &reply, &mut Vec::new());
        let entry = self.passed;
        self.passed += 1;
        Ok(Step {
            entry,
            session,
            event,
            reply,
            frames: frames(replayed.frames).unwrap_or_default(),
            view: self.model.view(),
        })
    }

    /// The session that an event is of, as it was before it.
    fn session(&self, event: &Event, reply: &Reply) -> Option<u16> {
        match event {
            Event::Deliver { .. } if reply.session != 0 => Some(reply.session as u16),
            Event::Deliver { connection, .. }
            | Event::Cut { connection, .. }
            | Event::Open { connection } => self.model.session_of(*connection),
            Event::Answer { session, .. } | Event::Watch { session, .. } => Some(*session as u16),
            Event::Clock { .. } | Event::Status { .. } | Event::Patterns { .. } => None,
        }
    }
}
