//! What a conformance run drives: any server, by the C interface's calls and numbers.

use std::hash::{Hash, Hasher};

use crate::event::{Counted, Deadline, Event, Readings, Reply, Row, Size};
use crate::lock_view::LockView;
use crate::mode::Fresh;
use crate::server::Server;
use crate::watch::Watch;

pub trait Subject {
    fn new(fresh: Fresh) -> Self
    where
        Self: Sized;
    fn open(&mut self, connection: u32) -> Reply;
    fn deliver(&mut self, connection: u32, bytes: &[u8], out: &mut [u8]) -> Reply;
    fn cut(&mut self, connection: u32, out: &mut [u8]) -> Reply;
    fn clock(&mut self, milliseconds: u64, out: &mut [u8]) -> Reply;
    fn answer(
        &mut self,
        session: u32,
        payload: &[u8],
        end: u8,
        shown: &[u8],
        out: &mut [u8],
    ) -> Reply;
    fn status(&mut self, status: u8);

    fn watch(&mut self, session: u32, watch: Watch) -> Reply;

    /// The list of allowed commands.
    fn patterns(&mut self, text: &[u8]) -> Reply;

    /// Questions, which change nothing.
    fn deadline(&self) -> Deadline;
    fn client_size(&self, session: u32) -> Size;
    /// The rows of the holders, into the front of a list.
    fn holders(&self, rows: &mut [Row]) -> Counted;
    /// The record of a session's readings.
    fn readings(&self, session: u32) -> Readings;

    /// A second server in the same state.
    fn fork(&self) -> Box<dyn Subject>;

    /// Everything the server holds, as bytes: equal images are equal servers.
    fn memory(&self, image: &mut Vec<u8>);

    /// False if memory that was never lent has been changed.
    fn intact(&self) -> bool {
        true
    }

    /// Its locks, if it can tell more than its answers do.
    fn lock_view(&self) -> Option<LockView> {
        None
    }

    fn apply(&mut self, event: &Event, out: &mut [u8]) -> Reply {
        match event {
            Event::Open { connection } => self.open(*connection),
            Event::Deliver {
                connection, bytes, ..
            } => self.deliver(*connection, bytes, out),
            Event::Cut { connection, .. } => self.cut(*connection, out),
            Event::Clock { milliseconds, .. } => self.clock(*milliseconds, out),
            Event::Answer {
                session,
                payload,
                end,
                shown,
                ..
            } => self.answer(*session, payload, *end, shown, out),
            Event::Status { status } => {
                self.status(*status);
                Reply::default()
            }
            Event::Watch { session, watch } => self.watch(*session, *watch),
            Event::Patterns { text } => self.patterns(text),
        }
    }
}

/// Collects what a derived `Hash` feeds it: every field, and no padding.
pub struct Image<'a>(pub &'a mut Vec<u8>);

impl Hasher for Image<'_> {
    fn write(&mut self, bytes: &[u8]) {
        self.0.extend_from_slice(bytes);
    }

    fn finish(&self) -> u64 {
        0
    }
}

pub fn image_of(held: &impl Hash, image: &mut Vec<u8>) {
    image.clear();
    held.hash(&mut Image(image));
}

/// Makes a server with the reference's methods a `Subject`.
#[macro_export]
macro_rules! subject_of {
    ($server:path) => {
        impl $crate::Subject for $server {
            fn new(fresh: $crate::Fresh) -> Self {
                <$server>::preferring(fresh.vendor, fresh.prefers)
            }

            fn open(&mut self, connection: u32) -> $crate::Reply {
                match <$server>::open(self, connection) {
                    Ok(()) => $crate::Reply::default(),
                    Err(refusal) => $crate::Reply::refused(refusal as u64),
                }
            }

            fn deliver(&mut self, connection: u32, bytes: &[u8], out: &mut [u8]) -> $crate::Reply {
                match <$server>::deliver(self, connection, bytes, out) {
                    Ok(delivery) => $crate::Reply {
                        refusal: 0,
                        outcome: delivery.outcome as u64,
                        session: u64::from(delivery.session),
                        taken: delivery.taken as u64,
                        output: delivery.output as u64,
                        missing: delivery.missing,
                        ..$crate::Reply::default()
                    },
                    Err(refusal) => $crate::Reply::refused(refusal as u64),
                }
            }

            fn cut(&mut self, connection: u32, out: &mut [u8]) -> $crate::Reply {
                match <$server>::cut(self, connection, out) {
                    Ok(output) => $crate::Reply::done(output as u64),
                    Err(refusal) => $crate::Reply::refused(refusal as u64),
                }
            }

            fn clock(&mut self, milliseconds: u64, out: &mut [u8]) -> $crate::Reply {
                match <$server>::clock(self, milliseconds, out) {
                    Ok(output) => $crate::Reply::done(output as u64),
                    Err(refusal) => $crate::Reply::refused(refusal as u64),
                }
            }

            fn answer(
                &mut self,
                session: u32,
                payload: &[u8],
                end: u8,
                shown: &[u8],
                out: &mut [u8],
            ) -> $crate::Reply {
                match <$server>::answer(self, session, payload, end != 0, shown, out) {
                    Ok(answered) => $crate::Reply {
                        withheld: u64::from(answered.withheld),
                        ..$crate::Reply::done(answered.output as u64)
                    },
                    Err(refusal) => $crate::Reply::refused(refusal as u64),
                }
            }

            fn status(&mut self, status: u8) {
                <$server>::status(self, status);
            }

            fn watch(&mut self, session: u32, watch: $crate::Watch) -> $crate::Reply {
                match <$server>::watch(self, session, watch) {
                    Ok(()) => $crate::Reply::default(),
                    Err(refusal) => $crate::Reply::refused(refusal as u64),
                }
            }

            fn patterns(&mut self, text: &[u8]) -> $crate::Reply {
                match <$server>::patterns(self, text) {
                    Ok(()) => $crate::Reply::default(),
                    Err(told) => $crate::Reply {
                        pattern: told.pattern as u64,
                        place: told.place as u64,
                        ..$crate::Reply::refused(told.refusal as u64)
                    },
                }
            }

            fn deadline(&self) -> $crate::Deadline {
                let (waiting, deadline) = <$server>::deadline(self);
                $crate::Deadline {
                    waiting: waiting as u64,
                    deadline,
                }
            }

            fn client_size(&self, session: u32) -> $crate::Size {
                match <$server>::client_size(self, session) {
                    Ok(size) => $crate::Size { refusal: 0, size },
                    Err(refusal) => $crate::Size {
                        refusal: refusal as u64,
                        size: 0,
                    },
                }
            }

            fn holders(&self, rows: &mut [$crate::Row]) -> $crate::Counted {
                match <$server>::holders(self, rows) {
                    Ok(rows) => $crate::Counted {
                        refusal: 0,
                        rows: rows as u64,
                    },
                    Err(refusal) => $crate::Counted {
                        refusal: refusal as u64,
                        rows: 0,
                    },
                }
            }

            fn readings(&self, session: u32) -> $crate::Readings {
                match <$server>::readings(self, session) {
                    Ok(Some(record)) => $crate::Readings {
                        refusal: 0,
                        seen: 1,
                        last: record.last,
                        lowest: record.lowest,
                        highest: record.highest,
                    },
                    Ok(None) => $crate::Readings::default(),
                    Err(refusal) => $crate::Readings {
                        refusal: refusal as u64,
                        ..$crate::Readings::default()
                    },
                }
            }

            fn fork(&self) -> Box<dyn $crate::Subject> {
                Box::new(self.clone())
            }

            fn memory(&self, image: &mut Vec<u8>) {
                $crate::subject::image_of(self, image);
            }

            fn lock_view(&self) -> Option<$crate::lock_view::LockView> {
                Some(<$server>::lock_view(self))
            }
        }
    };
}

subject_of!(Server);
