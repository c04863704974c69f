//! Books for the tests, and the program.
#![allow(dead_code)]

use std::fs;
use std::path::{Path, PathBuf};
use std::process::{Command, Output, Stdio};
use std::sync::atomic::{AtomicU32, Ordering};

use reference::journal::{Keeping, Kept};
use reference::{Event, Fresh};

const ROOM: usize = 1 << 20;

/// The journal of a list of events that are all accepted.
pub fn kept(fresh: Fresh, events: &[Event]) -> Vec<u8> {
    let mut keeping = Keeping::new(fresh, ROOM);
    for (place, event) in events.iter().enumerate() {
        let (reply, kept) = keeping.event(event);
        assert_eq!((reply.refusal, kept), (0, Kept::Written), "event {place}");
    }
    keeping.close()
}

/// Three programs share the instrument: the list that `timeline` draws.
pub fn three_programs() -> Vec<u8> {
    let text = include_str!("../../../timeline/lists/three_programs.txt");
    let list = timeline::list::read(text).expect("well formed");
    let events: Vec<Event> = list.into_iter().map(|entry| entry.event).collect();
    kept(Fresh::BENCH, &events)
}

/// A folder that goes with the test.
pub struct Folder(PathBuf);

impl Folder {
    pub fn new() -> Folder {
        static MADE: AtomicU32 = AtomicU32::new(0);
        let made = MADE.fetch_add(1, Ordering::Relaxed);
        let name = format!("journal-test-{}-{made}", std::process::id());
        let path = std::env::temp_dir().join(name);
        fs::create_dir_all(&path).expect("a folder");
        Folder(path)
    }

    pub fn path(&self) -> &Path {
        &self.0
    }

    /// A file with these bytes, and its name.
    pub fn file(&self, name: &str, bytes: &[u8]) -> String {
        let path = self.0.join(name);
        fs::write(&path, bytes).expect("written");
        path.to_str().expect("text").into()
    }
}

impl Drop for Folder {
    fn drop(&mut self) {
        let _ = fs::remove_dir_all(&self.0);
    }
}

/// Exit status, standard output and error.
pub fn journal(words: &[&str]) -> (i32, String, String) {
    told(program(words).output().expect("it runs"))
}

pub fn journal_into(words: &[&str], out: impl Into<Stdio>) -> (i32, String, String) {
    let program = program(words).stdout(out).stderr(Stdio::piped()).spawn();
    let done = program.and_then(|child| child.wait_with_output());
    told(done.expect("it runs"))
}

fn program(words: &[&str]) -> Command {
    let mut program = Command::new(env!("CARGO_BIN_EXE_journal"));
    program.args(words);
    program
}

fn told(output: Output) -> (i32, String, String) {
    let text = |bytes| String::from_utf8(bytes).expect("text");
    let status = output.status.code().expect("it ended by itself");
    (status, text(output.stdout), text(output.stderr))
}
