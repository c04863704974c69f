//! How long an instrument may still take, and the way to end its waiting early.

use std::net::{Shutdown, TcpStream};
use std::sync::{Condvar, Mutex, MutexGuard, PoisonError};
use std::time::{Duration, Instant};

use super::Fault;

struct State {
    until: Instant,
    cleared: bool,
    /// A socket that is waited on: shut down, it wakes who reads it.
    socket: Option<TcpStream>,
}

/// Given to the instrument with a request; all its waiting goes through it.
pub struct Patience {
    state: Mutex<State>,
    changed: Condvar,
}

impl Patience {
    /// From now, so long.
    pub fn new(longest: Duration) -> Patience {
        let state = State {
            until: Instant::now() + longest,
            cleared: false,
            socket: None,
        };
        Patience {
            state: Mutex::new(state),
            changed: Condvar::new(),
        }
    }

    fn state(&self) -> MutexGuard<'_, State> {
        self.state.lock().unwrap_or_else(PoisonError::into_inner)
    }

    /// Ends all waiting, from another thread.
    pub fn clear(&self) {
        let mut state = self.state();
        state.cleared = true;
        if let Some(socket) = &state.socket {
            let _ = socket.shutdown(Shutdown::Both);
        }
        self.changed.notify_all();
    }

    /// The time left, or why there is none.
    pub fn left(&self) -> Result<Duration, Fault> {
        let state = self.state();
        let left = state.until.saturating_duration_since(Instant::now());
        match (state.cleared, left) {
            (true, _) => Err(Fault::Cleared),
            (_, Duration::ZERO) => Err(Fault::TimedOut),
            _ => Ok(left),
        }
    }

    /// Takes so long, if there is so much time.
    pub fn sleep(&self, time: Duration) -> Result<(), Fault> {
        let time_is_over = time > self.left()?;
        let time = time.min(self.left()?);
        let waiting = |state: &mut State| !state.cleared;
        drop(self.changed.wait_timeout_while(self.state(), time, waiting));
        match (self.state().cleared, time_is_over) {
            (true, _) => Err(Fault::Cleared),
            (_, true) => Err(Fault::TimedOut),
            _ => Ok(()),
        }
    }

    /// Waiting on this socket ends when a device clear comes.
    pub fn watch(&self, socket: &TcpStream) -> Result<(), Fault> {
        let mut state = self.state();
        state.socket = socket.try_clone().ok();
        match state.cleared {
            true => Err(Fault::Cleared),
            false => Ok(()),
        }
    }
}
