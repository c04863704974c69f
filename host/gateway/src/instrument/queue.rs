//! The instrument's own thread and the queue of requests before it.

use std::collections::VecDeque;
use std::sync::mpsc::Sender;
use std::sync::{Arc, Condvar, Mutex, MutexGuard, PoisonError};
use std::time::Duration;

use super::{Fault, Instrument, Patience, Request};
use crate::event::Event;
use crate::session::SessionId;

/// A request's own number: what comes back under it belongs to no other request.
pub type Ticket = u64;

/// A request on its way to the instrument.
#[derive(Clone, Debug)]
pub struct Job {
    /// Its own number.
    pub ticket: Ticket,
    /// Whose it is.
    pub session: SessionId,
    /// What is wanted.
    pub request: Request,
}

/// A request that the instrument is through with.
pub struct Done {
    /// Its number.
    pub ticket: Ticket,
    /// Whose it was.
    pub session: SessionId,
    /// What the request took in the queue.
    pub cost: usize,
    /// The answer, if there is one.
    pub answer: Result<Option<Vec<u8>>, Fault>,
    /// The status byte after it.
    pub status: u8,
}

#[derive(Default)]
struct State {
    jobs: VecDeque<Job>,
    /// The session whose request is being done.
    running: Option<(SessionId, Arc<Patience>)>,
    closed: bool,
}

#[derive(Default)]
struct Shared {
    state: Mutex<State>,
    changed: Condvar,
}

impl Shared {
    fn state(&self) -> MutexGuard<'_, State> {
        self.state.lock().unwrap_or_else(PoisonError::into_inner)
    }

    /// Waits for a job; None at the end.
    fn next(&self, longest: Duration) -> Option<(Job, Arc<Patience>)> {
        let mut state = self.state();
        state.running = None;
        loop {
            if state.closed {
                return None;
            }
            if let Some(job) = state.jobs.pop_front() {
                let patience = Arc::new(Patience::new(longest));
                state.running = Some((job.session, Arc::clone(&patience)));
                return Some((job, patience));
            }
            let waited = self.changed.wait(state);
            state = waited.unwrap_or_else(PoisonError::into_inner);
        }
    }
}

/// The gateway's end of the queue.
pub struct Bench(Arc<Shared>);

impl Bench {
    /// Starts the thread. No request may take longer than `longest`.
    pub fn start(
        mut instrument: Box<dyn Instrument>,
        longest: Duration,
        events: Sender<Event>,
    ) -> std::io::Result<Bench> {
        let shared = Arc::new(Shared::default());
        let queue = Arc::clone(&shared);
        let thread = std::thread::Builder::new().name("instrument".into());
        thread.spawn(move || {
            while let Some((job, patience)) = queue.next(longest) {
                let answer = instrument.perform(&job.request, &patience);
                let done = Done {
                    ticket: job.ticket,
                    session: job.session,
                    cost: job.request.cost(),
                    answer,
                    status: instrument.status(),
                };
                if events.send(Event::Instrument(done)).is_err() {
                    return;
                }
            }
        })?;
        Ok(Bench(shared))
    }

    /// Puts a request behind the others.
    pub fn push(&self, job: Job) {
        self.0.state().jobs.push_back(job);
        self.0.changed.notify_one();
    }

    /// A device clear: the session's requests are dropped, and one that is being done is ended.
    pub fn clear(&self, session: SessionId) {
        let mut state = self.0.state();
        state.jobs.retain(|job| job.session != session);
        if let Some((running, patience)) = &state.running {
            if *running == session {
                patience.clear();
            }
        }
    }
}

impl Drop for Bench {
    fn drop(&mut self) {
        let mut state = self.0.state();
        state.closed = true;
        if let Some((_, patience)) = &state.running {
            patience.clear();
        }
        self.0.changed.notify_one();
    }
}
