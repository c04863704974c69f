//! SIGTERM and Ctrl-C end the gateway in order; a second one ends it at once.

use crate::gateway::Stopper;
use crate::os::{Endings, SIGINT};

/// A shell's number for a program ended by a signal.
const ENDED_BY_SIGNAL: i32 = 128;

/// Keeps the signals back from all threads started later. To be called first.
pub struct Signals(Endings);

impl Signals {
    /// Keeps them back from now on.
    pub fn keep_back() -> Signals {
        Signals(Endings::keep_back())
    }

    /// Stops the gateway when a signal comes.
    pub fn stop(self, gateway: Stopper) -> std::io::Result<()> {
        let thread = std::thread::Builder::new().name("signals".into());
        thread.spawn(move || {
            match self.0.wait() {
                Some(SIGINT) => gateway.stop("Ctrl-C"),
                _ => gateway.stop("SIGTERM"),
            }
            if let Some(signal) = self.0.wait() {
                std::process::exit(ENDED_BY_SIGNAL + signal);
            }
        })?;
        Ok(())
    }
}
