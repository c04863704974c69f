//! The thread that writes one socket, and the queue before it. Bytes that the socket takes at once go
//! past both: an answer costs no waking of a thread.

use std::io::{ErrorKind, Write};
use std::net::{Shutdown, TcpStream};
use std::sync::atomic::{AtomicUsize, Ordering};
use std::sync::mpsc::Sender;
use std::sync::{Condvar, Mutex, MutexGuard, PoisonError};
use std::time::Duration;

use crate::event::{Event, Id};
use crate::os;
use crate::reader::Incoming;

/// Unwritten bytes above which the connection's own bytes, and the rest of its answers, must wait. What
/// the server sends meanwhile for others' doing is at most one lock answer and one FatalError.
const UNWRITTEN: usize = 16 * 1024;
/// Closed connections that are waited for at the same time; further ones are shut down at once.
const MOST_LINGERING: usize = 64;
static LINGERING: AtomicUsize = AtomicUsize::new(0);

/// How long a closed connection has to take its last bytes and to close its own side.
pub const LINGER: Duration = Duration::from_secs(2);

#[derive(Default)]
struct State {
    bytes: Vec<u8>,
    /// Taken by the thread and perhaps not yet written.
    writing: usize,
    /// Somebody waits for room.
    awaited: bool,
    closing: bool,
}

#[derive(Default)]
pub struct Outgoing {
    state: Mutex<State>,
    changed: Condvar,
}

impl Outgoing {
    fn state(&self) -> MutexGuard<'_, State> {
        self.state.lock().unwrap_or_else(PoisonError::into_inner)
    }

    /// Sends what the socket takes at once; the thread writes the rest. A failure is met again by the
    /// thread, which tells of it.
    pub fn push(&self, stream: &TcpStream, bytes: &[u8]) {
        let mut state = self.state();
        let idle = state.bytes.is_empty() && state.writing == 0;
        let sent = match idle {
            true => os::send_now(stream, bytes).unwrap_or(0),
            false => 0,
        };
        if let Some(rest @ [_, ..]) = bytes.get(sent..) {
            state.bytes.extend_from_slice(rest);
            self.changed.notify_one();
        }
    }

    /// Whether more may be queued; if not, `Event::Written` will say when.
    pub fn has_room(&self) -> bool {
        let mut state = self.state();
        state.awaited |= state.bytes.len() + state.writing >= UNWRITTEN;
        !state.awaited
    }

    /// Closes the socket in order: what is queued is still written.
    pub fn close(&self) {
        self.state().closing = true;
        self.changed.notify_one();
    }

    /// The next bytes to write; None if all are written and the connection is closed.
    fn next(&self) -> Option<Vec<u8>> {
        let mut state = self.state();
        while state.bytes.is_empty() && !state.closing {
            let waited = self.changed.wait(state);
            state = waited.unwrap_or_else(PoisonError::into_inner);
        }
        let bytes = std::mem::take(&mut state.bytes);
        state.writing = bytes.len();
        (!bytes.is_empty()).then_some(bytes)
    }

    /// True if room was waited for and is there now.
    fn written(&self) -> bool {
        let mut state = self.state();
        state.writing = 0;
        state.bytes.is_empty() && std::mem::take(&mut state.awaited)
    }

    /// The thread. At the end the socket's writing side is closed first, and the program has a while to
    /// read all and close its own: a socket closed over unread bytes would take the last answer back.
    pub fn write_all(
        &self,
        connection: Id,
        mut stream: TcpStream,
        incoming: &Incoming,
        events: &Sender<Event>,
    ) {
        while let Some(bytes) = self.next() {
            if let Err(error) = self.write(&mut stream, &bytes) {
                let why = format!("writing failed, {error}");
                let _ = events.send(Event::Failed { connection, why });
                break;
            }
            if self.written() {
                let _ = events.send(Event::Written { connection });
            }
        }
        let _ = stream.shutdown(Shutdown::Write);
        if LINGERING.fetch_add(1, Ordering::Relaxed) < MOST_LINGERING {
            incoming.wait_for_end(LINGER);
        }
        LINGERING.fetch_sub(1, Ordering::Relaxed);
        let _ = stream.shutdown(Shutdown::Both);
    }

    /// Writes all; a program that does not read is waited for until its connection closes.
    fn write(&self, stream: &mut TcpStream, mut bytes: &[u8]) -> std::io::Result<()> {
        while !bytes.is_empty() {
            match stream.write(bytes) {
                Ok(0) => return Err(ErrorKind::WriteZero.into()),
                Ok(count) => bytes = &bytes[count..],
                Err(error) => match error.kind() {
                    ErrorKind::Interrupted => {}
                    ErrorKind::WouldBlock | ErrorKind::TimedOut if !self.state().closing => {}
                    _ => return Err(error),
                },
            }
        }
        Ok(())
    }
}
