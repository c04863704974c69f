//! The thread that reads one socket. It stops reading while too many of its bytes are not yet taken:
//! a program that is held, or that does not read its answers, must wait.

use std::io::{ErrorKind, Read};
use std::net::TcpStream;
use std::sync::mpsc::Sender;
use std::sync::{Condvar, Mutex, MutexGuard, PoisonError};
use std::time::Duration;

use crate::event::{Event, Id};
use crate::os;

/// Bytes of a connection that are read and not yet taken.
const UNREAD: usize = 16 * 1024;
const AT_ONCE: usize = 4096;
/// How often a connection that is not being read is looked at for its end.
const LOOK: Duration = Duration::from_millis(250);

#[derive(Default)]
struct State {
    unread: usize,
    /// The connection is closed: what still comes is dropped.
    dropping: bool,
    ended: bool,
}

#[derive(Default)]
pub struct Incoming {
    state: Mutex<State>,
    changed: Condvar,
}

impl Incoming {
    fn state(&self) -> MutexGuard<'_, State> {
        self.state.lock().unwrap_or_else(PoisonError::into_inner)
    }

    /// So many bytes were taken.
    pub fn taken(&self, count: usize) {
        let mut state = self.state();
        let full = state.unread >= UNREAD;
        state.unread = state.unread.saturating_sub(count);
        if full {
            self.changed.notify_all();
        }
    }

    /// Reads on, for the other side's sake alone.
    pub fn drop_the_rest(&self) {
        self.state().dropping = true;
        self.changed.notify_all();
    }

    /// Waits at most so long for the end of the stream.
    pub fn wait_for_end(&self, longest: Duration) {
        let state = self.state();
        let goes_on = |state: &mut State| !state.ended;
        drop(self.changed.wait_timeout_while(state, longest, goes_on));
    }

    /// Waits until reading may go on; false if the stream ended meanwhile.
    fn wait_for_room(&self, stream: &TcpStream) -> bool {
        let mut state = self.state();
        while state.unread >= UNREAD && !state.dropping {
            let waited = self.changed.wait_timeout(state, LOOK);
            let (again, timeout) = waited.unwrap_or_else(PoisonError::into_inner);
            if timeout.timed_out() && os::hung_up(stream) {
                return false;
            }
            state = again;
        }
        true
    }

    /// Counts what was read; false if it is to be dropped.
    fn keep(&self, count: usize) -> bool {
        let mut state = self.state();
        state.unread += count;
        !state.dropping
    }

    /// The thread: passes on what comes, and at last the end.
    pub fn read_all(&self, connection: Id, mut stream: TcpStream, events: &Sender<Event>) {
        let mut bytes = [0; AT_ONCE];
        let last = loop {
            if !self.wait_for_room(&stream) {
                let why = "the program hung up".into();
                break Event::Failed { connection, why };
            }
            match stream.read(&mut bytes) {
                Ok(0) => break Event::Ended { connection },
                Ok(count) => {
                    if self.keep(count) {
                        let bytes = bytes[..count].to_vec();
                        let _ = events.send(Event::Bytes { connection, bytes });
                    }
                }
                Err(error) if error.kind() == ErrorKind::Interrupted => {}
                Err(error) => {
                    let why = error.to_string();
                    break Event::Failed { connection, why };
                }
            }
        };
        let _ = events.send(last);
        self.state().ended = true;
        self.changed.notify_all();
    }
}
