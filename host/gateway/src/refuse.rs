//! A program for which there is no place: it is told so, and its socket is closed in order.

use std::io::{Read, Write};
use std::net::{Shutdown, TcpStream};
use std::sync::atomic::{AtomicUsize, Ordering};
use std::sync::Arc;
use std::time::Instant;

use query::{message, names};

use crate::writer::LINGER;

/// FatalError: server refused connection due to maximum number of clients exceeded.
pub const TOO_MANY: u8 = 4;
/// Programs told at the same time; further ones are just closed.
const MOST_TOLD: usize = 64;

#[derive(Default)]
pub struct Refusals(Arc<AtomicUsize>);

impl Refusals {
    /// Tells the program on a thread of its own, so that nobody waits for it; false if it was just
    /// closed.
    pub fn tell(&self, stream: TcpStream) -> bool {
        let told = Arc::clone(&self.0);
        if told.fetch_add(1, Ordering::Relaxed) >= MOST_TOLD {
            told.fetch_sub(1, Ordering::Relaxed);
            return false;
        }
        let count = Arc::clone(&told);
        let thread = std::thread::Builder::new().name("refuse".into());
        let started = thread.spawn(move || {
            let _ = tell(stream);
            count.fetch_sub(1, Ordering::Relaxed);
        });
        if started.is_err() {
            told.fetch_sub(1, Ordering::Relaxed);
        }
        started.is_ok()
    }
}

/// Writes the FatalError, then reads what the program sends until it closes: a socket closed over
/// unread bytes would take the FatalError back.
fn tell(mut stream: TcpStream) -> std::io::Result<()> {
    let until = Instant::now() + LINGER;
    stream.set_write_timeout(Some(LINGER))?;
    stream.write_all(&message::bytes(names::FATAL_ERROR, TOO_MANY, 0, b""))?;
    stream.shutdown(Shutdown::Write)?;
    let mut dropped = [0; 1024];
    loop {
        let left = until.saturating_duration_since(Instant::now());
        if left.is_zero() {
            return Ok(());
        }
        stream.set_read_timeout(Some(left))?;
        if stream.read(&mut dropped)? == 0 {
            return Ok(());
        }
    }
}
