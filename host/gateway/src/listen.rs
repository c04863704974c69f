//! The thread that waits for programs.

use std::net::TcpListener;
use std::sync::atomic::{AtomicBool, Ordering};
use std::sync::mpsc::Sender;
use std::sync::Arc;
use std::time::Duration;

use crate::event::Event;
use crate::os;

/// Pause after a failure such as too many open files.
const PAUSE: Duration = Duration::from_millis(100);

pub struct Listening {
    listener: Arc<TcpListener>,
    ending: Arc<AtomicBool>,
}

impl Listening {
    pub fn start(listener: TcpListener, events: Sender<Event>) -> std::io::Result<Listening> {
        let listening = Listening {
            listener: Arc::new(listener),
            ending: Arc::default(),
        };
        let (listener, ending) = (
            Arc::clone(&listening.listener),
            Arc::clone(&listening.ending),
        );
        let thread = std::thread::Builder::new().name("listen".into());
        thread.spawn(move || {
            while !ending.load(Ordering::Relaxed) {
                match listener.accept() {
                    Ok((stream, peer)) => {
                        let _ = events.send(Event::Newcomer { stream, peer });
                    }
                    Err(_) => std::thread::sleep(PAUSE),
                }
            }
        })?;
        Ok(listening)
    }
}

impl Drop for Listening {
    fn drop(&mut self) {
        self.ending.store(true, Ordering::Relaxed);
        os::wake(&self.listener);
    }
}
