//! `--journal FILE`: what is kept of a run, when it ends in order and when it is killed.

mod common;

use std::fs;
use std::io::{Read, Write};
use std::net::TcpStream;
use std::path::PathBuf;
use std::thread::{sleep, spawn};
use std::time::Duration;

use common::client::bytes;
use common::program::Program;
use hislip::sys::journal::{hislip_journal_backward, hislip_journal_forward};
use reference::verifier::{judge, Verdict};
use reference::{Fresh, Mode};

const INITIALIZE: u8 = 0;
const DATA_END: u8 = 7;
const ASYNC_INITIALIZE: u8 = 17;
/// The tag of an answer's body.
const ANSWER: u8 = 4;
/// The tag of a watch with one limit.
const WATCH_ABOVE: u8 = 7;
const KILLED: u64 = 200;

fn file(name: &str) -> PathBuf {
    let name = format!("hislip-gateway-{name}-{}", std::process::id());
    std::env::temp_dir().join(name)
}

fn start(path: &std::path::Path) -> Program {
    start_with(path, &[])
}

fn start_with(path: &std::path::Path, more: &[&str]) -> Program {
    let path = path.to_str().expect("plain text");
    Program::start("127.0.0.1:0", &[&["--journal", path], more].concat())
}

/// One message; None if the gateway is gone.
fn message(stream: &mut TcpStream) -> Option<(u8, u32)> {
    let mut header = [0; 16];
    stream.read_exact(&mut header).ok()?;
    let number = |range: std::ops::Range<usize>| {
        header[range]
            .iter()
            .fold(0, |sum, byte| sum << 8 | u64::from(*byte))
    };
    let mut payload = vec![0; number(8..16) as usize];
    stream.read_exact(&mut payload).ok()?;
    Some((header[2], number(4..8) as u32))
}

/// Asks `*IDN?` again and again, so many times or until the gateway is gone: the numbers of the answers that
/// were read whole.
fn ask(address: &str, times: usize) -> Vec<u32> {
    let mut answered = Vec::new();
    let _ = ask_into(address, times, &mut answered);
    answered
}

fn ask_into(address: &str, times: usize, answered: &mut Vec<u32>) -> Option<()> {
    let mut sync = TcpStream::connect(address).ok()?;
    sync.write_all(&bytes(INITIALIZE, 0, 0x0100_5858, b"hislip0"))
        .ok()?;
    let (_, session) = message(&mut sync)?;
    let mut second = TcpStream::connect(address).ok()?;
    let join = bytes(ASYNC_INITIALIZE, 0, session & 0xffff, b"");
    second.write_all(&join).ok()?;
    message(&mut second)?;
    for turn in 0..times {
        let number = 0xffff_ff00_u32.wrapping_add(2 * turn as u32);
        let delivered = u8::from(turn > 0);
        sync.write_all(&bytes(DATA_END, delivered, number, b"*IDN?\n"))
            .ok()?;
        let (kind, told) = message(&mut sync)?;
        assert_eq!((kind, told), (DATA_END, number));
        answered.push(number);
    }
    Some(())
}

/// The bodies of a book's whole entries, and how many bytes they take.
fn entries(book: &[u8]) -> (Vec<&[u8]>, usize) {
    let mut bodies = Vec::new();
    let mut at = 0;
    loop {
        // SAFETY: a borrowed slice that is only read.
        let entry = unsafe { hislip_journal_forward(book.as_ptr(), book.len(), at) };
        if entry.found == 0 {
            return (bodies, at as usize);
        }
        bodies.push(&book[entry.body as usize..][..entry.length as usize]);
        at = entry.next;
    }
}

fn four(bytes: &[u8], at: usize) -> u32 {
    u32::from_be_bytes(bytes[at..at + 4].try_into().expect("four bytes"))
}

/// The MessageIDs of the DataENDs that are kept: behind session, END, payload and the bytes shown of an
/// answer's body stands its frame.
fn answers(bodies: &[&[u8]]) -> Vec<u32> {
    let kept = bodies.iter().filter(|body| body[0] == ANSWER);
    let number = |body: &&[u8]| {
        let shown = 10 + four(body, 6) as usize;
        let frame = shown + 4 + four(body, shown) as usize;
        four(body, frame + 5)
    };
    kept.map(number).collect()
}

#[test]
fn a_run_that_ends_in_order_leaves_a_closed_journal() {
    let path = file("ended");
    let mut program = start(&path);
    let answered = ask(&program.address, 20);
    assert_eq!(answered.len(), 20);
    program.signal("TERM");
    assert!(program.ended().is_some_and(|status| status.success()));
    let book = fs::read(&path).expect("the journal");
    let (bodies, end) = entries(&book);
    assert_eq!(answers(&bodies), answered);
    assert_eq!(&book[end..end + 4], b"BACK");
    assert_eq!(four(&book, end + 8) as usize, bodies.len());
    assert_eq!(book.len(), end + 12);
    let fresh = Fresh {
        vendor: u16::from_be_bytes(*b"EX"),
        prefers: Mode::Synchronized,
    };
    let count = bodies.len() as u64;
    assert_eq!(judge(fresh, &book), Verdict::Accepted { entries: count });
    // SAFETY: as above.
    let last = unsafe { hislip_journal_backward(book.as_ptr(), book.len(), end as u64) };
    assert_eq!(last.found, 1);
    assert_eq!(four(&book, end + 4) as u64, last.next);
    fs::remove_file(path).expect("it was there");
}

/// The list is the first entry, its text; the watch is set when the session opens.
#[test]
fn the_list_and_the_watches_are_entries() {
    let (path, list) = (file("settings"), file("allowed"));
    fs::write(&list, "*IDN?\nREAD?\n").expect("a place for files");
    let allow = list.to_str().expect("plain text");
    let mut program = start_with(&path, &["--allow", allow, "--watch", "2.5"]);
    assert_eq!(ask(&program.address, 1).len(), 1);
    program.signal("TERM");
    assert!(program.ended().is_some_and(|status| status.success()));
    let book = fs::read(&path).expect("the journal");
    let (bodies, _) = entries(&book);
    assert_eq!(bodies[0], b"\x09\0\0\0\x0c*IDN?\nREAD?\n");
    let watches = bodies.iter().filter(|body| body[0] == WATCH_ABOVE);
    let limits: Vec<u32> = watches.map(|body| four(body, 5)).collect();
    assert_eq!(limits, [2.5_f32.to_bits()]);
    let fresh = Fresh {
        vendor: u16::from_be_bytes(*b"EX"),
        prefers: Mode::Synchronized,
    };
    let count = bodies.len() as u64;
    assert_eq!(judge(fresh, &book), Verdict::Accepted { entries: count });
    fs::remove_file(path).expect("it was there");
    fs::remove_file(list).expect("it was there");
}

#[test]
fn a_gateway_that_is_killed_loses_no_entry() {
    let path = file("killed");
    let mut most = 0;
    for turn in 0..KILLED {
        let program = start(&path);
        let address = program.address.clone();
        let client = spawn(move || ask(&address, usize::MAX));
        sleep(Duration::from_micros(turn * 7919 % 30_000));
        program.signal("KILL");
        let answered = client.join().expect("it only reads and writes");
        drop(program);
        let book = fs::read(&path).expect("the journal");
        let (bodies, _) = entries(&book);
        let kept = answers(&bodies);
        assert!(kept.starts_with(&answered), "{answered:x?} {kept:x?}");
        assert!(kept.len() <= answered.len() + 1, "{answered:x?} {kept:x?}");
        most = most.max(answered.len());
    }
    assert!(most > 0, "some were answered");
    fs::remove_file(path).expect("it was there");
}
