//! As conformance runs see it.

use reference::lock_view::{LockView, SessionView, StandingView, WaitingView};
use reference::subject::image_of;
use reference::{Counted, Deadline, Fresh, Readings, Refusal, Reply, Row, Size, Subject, Watch};

use crate::locks::Request;
use crate::server::Server;

impl Subject for Server {
    fn new(fresh: Fresh) -> Server {
        Server::new(fresh.vendor, fresh.prefers)
    }

    fn open(&mut self, connection: u32) -> Reply {
        Server::open(self, connection)
    }

    fn deliver(&mut self, connection: u32, bytes: &[u8], out: &mut [u8]) -> Reply {
        Server::deliver(self, connection, bytes, out)
    }

    fn cut(&mut self, connection: u32, out: &mut [u8]) -> Reply {
        Server::cut(self, connection, out)
    }

    fn clock(&mut self, milliseconds: u64, out: &mut [u8]) -> Reply {
        Server::clock(self, milliseconds, out)
    }

    fn answer(
        &mut self,
        session: u32,
        payload: &[u8],
        end: u8,
        shown: &[u8],
        out: &mut [u8],
    ) -> Reply {
        Server::answer(self, session, payload, end, shown, out)
    }

    fn status(&mut self, status: u8) {
        Server::status(self, status);
    }

    fn watch(&mut self, session: u32, watch: Watch) -> Reply {
        Server::watch(self, session, watch)
    }

    fn patterns(&mut self, text: &[u8]) -> Reply {
        Server::patterns(self, text)
    }

    fn deadline(&self) -> Deadline {
        let deadlines = || self.locks.waiting().map(|(_, request)| request.deadline);
        Deadline {
            waiting: deadlines().count() as u64,
            deadline: deadlines().min().unwrap_or(0),
        }
    }

    fn client_size(&self, session: u32) -> Size {
        let mut live = self.sessions.iter().filter(|live| live.number != 0);
        match live.find(|live| u32::from(live.number) == session) {
            Some(live) => Size {
                refusal: 0,
                size: live.client_size,
            },
            None => Size {
                refusal: Refusal::NoSession as u64,
                size: 0,
            },
        }
    }

    fn holders(&self, rows: &mut [Row]) -> Counted {
        Server::holders(self, rows)
    }

    fn readings(&self, session: u32) -> Readings {
        Server::readings(self, session)
    }

    fn fork(&self) -> Box<dyn Subject> {
        Box::new(self.clone())
    }

    fn memory(&self, image: &mut Vec<u8>) {
        image_of(self, image);
    }

    fn lock_view(&self) -> Option<LockView> {
        Some(self.locks_shown())
    }
}

impl Server {
    fn locks_shown(&self) -> LockView {
        let live = (0..).zip(&self.sessions);
        let live = live.filter(|(_, session)| session.number != 0);
        let shown = |(slot, session): (u8, &crate::server::Session)| SessionView {
            session: session.number,
            synchronous: session.synchronous,
            asynchronous: session.asynchronous,
            exclusive: self.locks.has_exclusive(slot),
            shared: self.locks.shared_by(slot).map(<[u8]>::to_vec),
            last: session.last,
            standing: session.standing.map(|release| StandingView {
                number: release.number,
                answer: release.lock as u8,
            }),
        };
        let waiting = |(slot, request): (u8, &Request)| WaitingView {
            session: self.sessions[usize::from(slot)].number,
            string: request.string.as_bytes().to_vec(),
            deadline: request.deadline,
        };
        let mut sessions: Vec<_> = live.map(shown).collect();
        sessions.sort_by_key(|view| view.session);
        LockView {
            clock: self.clock,
            sessions,
            waiting: self.locks.waiting().map(waiting).collect(),
        }
    }
}
