//! Lines to standard output and to a file. A line is handed over and never waited for: each sink has
//! a thread of its own and a bounded queue. Lines that find it full, or that cannot be written, are
//! dropped and counted; the count is written as soon as writing works again.

use std::io::Write;
use std::sync::atomic::{AtomicU64, Ordering};
use std::sync::mpsc::{channel, sync_channel, Receiver, SyncSender};
use std::sync::Arc;
use std::time::{Duration, Instant};

use crate::utc;

const WAITING_LINES: usize = 8192;
/// How long a line waits for others to be written with it.
const GATHER: Duration = Duration::from_millis(10);
/// Longest wait for the last lines when the gateway ends.
const LAST_FLUSH: Duration = Duration::from_secs(1);

struct Sink {
    lines: SyncSender<String>,
    dropped: Arc<AtomicU64>,
    /// Hangs up when the thread has written all.
    written: Receiver<()>,
}

/// Where lines go; without a sink they are not even made.
#[derive(Default)]
pub struct Log(Vec<Sink>);

impl Log {
    /// Every line from now on goes here too.
    pub fn add(&mut self, out: impl Write + Send + 'static) {
        let (lines, queue) = sync_channel(WAITING_LINES);
        let (done, written) = channel();
        let dropped = Arc::new(AtomicU64::new(0));
        let count = Arc::clone(&dropped);
        let writing = move || {
            write_lines(out, &queue, &count);
            drop(done);
        };
        let started = std::thread::Builder::new()
            .name("log".into())
            .spawn(writing);
        if started.is_ok() {
            let sink = Sink {
                lines,
                dropped,
                written,
            };
            self.0.push(sink);
        }
    }

    /// One line, with the time before it.
    pub fn say(&self, line: impl FnOnce() -> String) {
        if self.0.is_empty() {
            return;
        }
        let line = format!("{} {}\n", utc::now(), line());
        for sink in &self.0 {
            if sink.lines.try_send(line.clone()).is_err() {
                sink.dropped.fetch_add(1, Ordering::Relaxed);
            }
        }
    }

    /// Waits until the lines are written, but not long.
    pub fn flush(self) {
        let until = Instant::now() + LAST_FLUSH;
        for sink in self.0 {
            drop(sink.lines);
            let left = until.saturating_duration_since(Instant::now());
            let _ = sink.written.recv_timeout(left);
        }
    }
}

/// Writes lines in batches: the first of a batch waits a moment for others.
fn write_lines(mut out: impl Write, queue: &Receiver<String>, dropped: &AtomicU64) {
    while let Ok(mut text) = queue.recv() {
        std::thread::sleep(GATHER);
        let more = queue.try_iter().take(WAITING_LINES);
        let more = more.map(|line| text.push_str(&line)).count() as u64;
        let lost = dropped.swap(0, Ordering::Relaxed);
        if lost > 0 {
            text.push_str(&format!("{} {lost} lines dropped\n", utc::now()));
        }
        let written = out.write_all(text.as_bytes());
        if written.and_then(|()| out.flush()).is_err() {
            dropped.fetch_add(lost + 1 + more, Ordering::Relaxed);
        }
    }
}
