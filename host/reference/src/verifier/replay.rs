//! The server a second time, fed with what a journal says.

use crate::event::{Event, Reply};
use crate::journal::events::replayable;
use crate::journal::layout::decode;
use crate::limits::OUTPUT;
use crate::mode::Fresh;
use crate::server::Server;
use crate::subject::Subject;
use crate::verifier::Fault;

/// An entry that is right: its event, what the server answered, and the frames beside it.
#[derive(Clone, Debug, PartialEq, Eq)]
pub struct Replayed<'a> {
    pub event: Event,
    pub reply: Reply,
    pub frames: &'a [u8],
}

pub struct Replay {
    server: Server,
    out: [u8; OUTPUT],
}

impl Replay {
    pub fn new(fresh: Fresh) -> Replay {
        Replay {
            server: <Server as Subject>::new(fresh),
            out: [0; OUTPUT],
        }
    }

    /// The event of a body must give the very frames beside it; a refused one is a fault of parcels.
    pub fn body<'a>(&mut self, body: &'a [u8]) -> Result<Replayed<'a>, Fault> {
        let (recorded, frames) = decode(body).ok_or(Fault::Layout)?;
        let event = replayable(recorded);
        let reply = self.server.apply(&event, &mut self.out);
        if reply.refusal != 0 || self.out[..reply.output as usize] != *frames {
            return Err(Fault::Parcels);
        }
        Ok(Replayed {
            event,
            reply,
            frames,
        })
    }
}
