//! A gateway inside the test, its log, and a client.

#![allow(dead_code)]

pub mod client;
pub mod program;
pub mod scpi_server;

use std::io::Write;
use std::net::SocketAddr;
use std::sync::{Arc, Mutex};
use std::thread::{spawn, JoinHandle};
use std::time::{Duration, Instant};

use client::Client;
use gateway::instrument::raw_socket::RawSocket;
use gateway::instrument::simulated::Simulated;
use gateway::instrument::Instrument;
use gateway::{Gateway, Log, Settings, Stopper};

#[derive(Clone, Default)]
pub struct Lines(Arc<Mutex<Vec<u8>>>);

impl Write for Lines {
    fn write(&mut self, bytes: &[u8]) -> std::io::Result<usize> {
        self.0.lock().expect("not poisoned").extend(bytes);
        Ok(bytes.len())
    }

    fn flush(&mut self) -> std::io::Result<()> {
        Ok(())
    }
}

impl Lines {
    pub fn text(&self) -> String {
        String::from_utf8(self.0.lock().expect("not poisoned").clone()).expect("plain text")
    }
}

pub struct Running {
    pub address: SocketAddr,
    pub lines: Lines,
    stopper: Stopper,
    thread: Option<JoinHandle<()>>,
}

/// Any free port of the loopback address.
pub fn settings() -> Settings {
    Settings {
        listen: "127.0.0.1:0".into(),
        ..Settings::default()
    }
}

impl Running {
    /// In front of a simulated meter that measures at once.
    pub fn start() -> Running {
        Running::measuring(Duration::ZERO)
    }

    pub fn measuring(time: Duration) -> Running {
        Running::with(&settings(), Box::new(Simulated::new(time)))
    }

    /// In front of an instrument on a raw SCPI socket.
    pub fn before(instrument: SocketAddr, time_out: Duration) -> Running {
        let settings = Settings {
            instrument_within: time_out,
            ..settings()
        };
        Running::with(&settings, Box::new(RawSocket::new(instrument.to_string())))
    }

    pub fn with(settings: &Settings, instrument: Box<dyn Instrument>) -> Running {
        let lines = Lines::default();
        let mut log = Log::default();
        log.add(lines.clone());
        let gateway = Gateway::new(settings, instrument, log).expect("a free port");
        Running {
            address: gateway.address(),
            lines,
            stopper: gateway.stopper(),
            thread: Some(spawn(|| gateway.run())),
        }
    }

    pub fn open(&self) -> Client {
        Client::open(self.address)
    }

    /// Waits until the log has this text.
    pub fn logged(&self, text: &str) -> bool {
        eventually(|| self.lines.text().contains(text))
    }

    /// How often the log has this text now.
    pub fn count(&self, text: &str) -> usize {
        self.lines.text().matches(text).count()
    }
}

impl Drop for Running {
    fn drop(&mut self) {
        self.stopper.stop("the test is over");
        if let Some(thread) = self.thread.take() {
            assert!(thread.join().is_ok() || std::thread::panicking());
        }
    }
}

/// Waits until it is so, but not for ever.
pub fn eventually(mut so: impl FnMut() -> bool) -> bool {
    let until = Instant::now() + client::PATIENCE;
    while !so() {
        if Instant::now() > until {
            return false;
        }
        std::thread::sleep(Duration::from_millis(2));
    }
    true
}
