//! An entry's bytes are stored in ascending order, so that a journal whose writing stops ends with a first part of
//! an entry (02, Q-7). The proofs speak of the book before and after a call; this looks at the machine code between.
//!
//! The book lies so that byte k of an entry is the first of a page that may not be written, for every k in turn. The
//! first store at or behind byte k stops there, and what the entry's bytes before k are then is looked at, before the
//! page is opened and the call goes on. Two facts for every k: that store touches byte k itself, and the bytes
//! before k are a first part of the entry, then bytes that nobody has written. Together: a store that reaches further
//! than all before it begins no further than where they ended, so after any store a first part is written, and no
//! more. A store has several bytes where the compiler joins them; then the first part ends where such a store begins.
#![cfg(all(
    target_os = "linux",
    any(target_arch = "x86_64", target_arch = "aarch64")
))]

use std::ffi::c_void;
use std::sync::atomic::Ordering::SeqCst;
use std::sync::atomic::{AtomicU64, AtomicU8, AtomicUsize};
use std::sync::{Mutex, MutexGuard, PoisonError};

use conform::kept::Keeper;
use conform::messages::{message, ROOM};
use hislip::sys::journal::hislip_journal_forward;
use reference::compose::{answer_beside, clock, cut, deliver, watch};
use reference::{Event, Fresh, Watch};

/// At least so many bytes before the border, and behind it.
const BESIDE: usize = 16 * 1024;
/// Bytes behind the entry that a call may not touch.
const BEHIND: usize = 64;
const FILL: u8 = 0xa5;

// Linux, of 64 bits.
const SEGMENTATION_FAULT: i32 = 11;
const WITH_INFORMATION: i32 = 4;
const READ: i32 = 1;
const WRITE: i32 = 2;
const PRIVATE_AND_ANONYMOUS: i32 = 0x22;

#[repr(C)]
struct Information {
    numbers: [i32; 4],
    address: usize,
}

#[repr(C)]
struct Action {
    handler: extern "C" fn(i32, *const Information, *mut c_void),
    mask: [u64; 16],
    flags: i32,
    restorer: usize,
}

extern "C" {
    fn mmap(at: *mut c_void, length: usize, may: i32, how: i32, file: i32, from: i64) -> *mut u8;
    fn mprotect(at: *mut c_void, length: usize, may: i32) -> i32;
    fn getpagesize() -> i32;
    fn sigaction(signal: i32, action: *const Action, old: *mut Action) -> i32;
    fn signal(signal: i32, handler: usize) -> usize;
}

/// What the handler goes by: the guarded bytes, where the entry begins, the writer's words.
static BORDER: AtomicUsize = AtomicUsize::new(0);
static END: AtomicUsize = AtomicUsize::new(0);
static ENTRY: AtomicUsize = AtomicUsize::new(0);
static WORDS: AtomicUsize = AtomicUsize::new(0);
/// What it saw: how many stores were stopped, at which byte, the entry's bytes before the border, the words.
static STOPS: AtomicUsize = AtomicUsize::new(0);
static PLACE: AtomicUsize = AtomicUsize::new(0);
static SEEN: [AtomicU8; BESIDE] = [const { AtomicU8::new(0) }; BESIDE];
static SEEN_WORDS: [AtomicU64; 4] = [const { AtomicU64::new(0) }; 4];

/// Looks, opens the page, and lets the store go on.
extern "C" fn stopped(_: i32, information: *const Information, _: *mut c_void) {
    // SAFETY: the kernel hands the information; the addresses are those of `Region::stop`, mapped and readable.
    unsafe {
        let address = (*information).address;
        let (border, end) = (BORDER.load(SeqCst), END.load(SeqCst));
        if address < border || address >= end {
            signal(SEGMENTATION_FAULT, 0); // another fault: the process dies of it
            return;
        }
        let entry = ENTRY.load(SeqCst) as *const u8;
        for (place, seen) in SEEN.iter().enumerate().take(border - entry as usize) {
            seen.store(entry.add(place).read_volatile(), SeqCst);
        }
        let words = WORDS.load(SeqCst) as *const u64;
        for (place, seen) in SEEN_WORDS.iter().enumerate() {
            seen.store(words.add(place).read_volatile(), SeqCst);
        }
        PLACE.store(address, SeqCst);
        STOPS.fetch_add(1, SeqCst);
        mprotect(border as *mut c_void, end - border, READ | WRITE);
    }
}

/// Memory with a border between two pages; one test at a time has it.
struct Region {
    start: *mut u8,
    half: usize,
    _alone: MutexGuard<'static, ()>,
}

/// What a writer had done when it first stored at or behind the border.
struct Stop {
    /// How far behind the border the store went, at its first byte there.
    behind: usize,
    bytes: Vec<u8>,
    words: [u64; 4],
}

impl Region {
    fn new() -> Region {
        static ALONE: Mutex<()> = Mutex::new(());
        let alone = ALONE.lock().unwrap_or_else(PoisonError::into_inner);
        // SAFETY: new memory, and a handler that touches nothing else.
        unsafe {
            let half = BESIDE.next_multiple_of(getpagesize() as usize);
            let none = std::ptr::null_mut();
            let start = mmap(none, 2 * half, READ | WRITE, PRIVATE_AND_ANONYMOUS, -1, 0);
            assert!(start as isize != -1, "no memory");
            let action = Action {
                handler: stopped,
                mask: [0; 16],
                flags: WITH_INFORMATION,
                restorer: 0,
            };
            let old = std::ptr::null_mut();
            assert_eq!(sigaction(SEGMENTATION_FAULT, &action, old), 0);
            Region {
                start,
                half,
                _alone: alone,
            }
        }
    }

    fn border(&self) -> usize {
        self.start as usize + self.half
    }

    fn may(&self, may: i32) {
        let border = self.border() as *mut c_void;
        // SAFETY: the second half of the region.
        assert_eq!(unsafe { mprotect(border, self.half, may) }, 0);
    }

    /// Runs a writer whose entry comes behind `past`, with the entry's byte `k` behind the border. Before, every byte
    /// of the entry is what it will not be.
    fn stop(
        &self,
        case: &Case,
        k: usize,
        words: *const u64,
        write: impl FnOnce(&mut [u8]),
    ) -> Stop {
        self.may(READ | WRITE);
        let (past, entry) = (&case.past, &case.entry);
        let start = self.border() - past.len() - k;
        let length = past.len() + entry.len() + BEHIND;
        // SAFETY: inside the region, which nobody else has; the handler reads while the writer stands still.
        let book = unsafe { std::slice::from_raw_parts_mut(start as *mut u8, length) };
        let never: Vec<u8> = entry.iter().map(|byte| !byte).collect();
        book.copy_from_slice(&[&past[..], &never, &[FILL; BEHIND]].concat());
        BORDER.store(self.border(), SeqCst);
        END.store(self.border() + self.half, SeqCst);
        ENTRY.store(start + past.len(), SeqCst);
        WORDS.store(words as usize, SeqCst);
        STOPS.store(0, SeqCst);
        self.may(READ);
        write(book);
        assert_eq!(STOPS.load(SeqCst), 1, "{}: byte {k} is stored", case.what);
        let whole = [&past[..], entry, &[FILL; BEHIND]].concat();
        assert!(*book == whole, "{}: the book at the end", case.what);
        Stop {
            behind: PLACE.load(SeqCst) - self.border(),
            bytes: SEEN.iter().take(k).map(|byte| byte.load(SeqCst)).collect(),
            words: std::array::from_fn(|place| SEEN_WORDS[place].load(SeqCst)),
        }
    }
}

/// How many bytes were written when byte k was stored; None if they, or byte k, were not in order.
fn written(stop: &Stop, entry: &[u8]) -> Option<usize> {
    let Stop { behind, bytes, .. } = stop;
    let pairs = || bytes.iter().zip(entry);
    let length = pairs().take_while(|(seen, byte)| seen == byte).count();
    let untouched = pairs().skip(length).all(|(seen, byte)| *seen == !byte);
    (*behind == 0 && untouched).then_some(length)
}

/// A journal that is kept so far, and what is written next: an event's entry, or the closing trailer.
struct Case {
    what: String,
    keeper: Keeper,
    past: Vec<u8>,
    event: Option<Event>,
    entry: Vec<u8>,
}

fn act(keeper: &mut Keeper, event: &Option<Event>, book: &mut [u8]) {
    let mut out = [0; ROOM];
    match event {
        Some(event) => {
            let (reply, kept) = keeper.keep(event, &mut out[..event.room()], book);
            assert_eq!((reply.refusal, kept), (0, 0), "{event:?}");
        }
        None => assert_eq!(keeper.close(book), 0),
    }
}

/// Every event's entry in a row, and the closing trailer.
fn cases() -> Vec<Case> {
    let mut keeper = Keeper::new(Fresh::BENCH);
    let mut book = vec![0; 2 * BESIDE];
    assert_eq!(keeper.begin(&mut book), 0);
    let steps = events()
        .into_iter()
        .map(|(what, event)| (what, Some(event)));
    let mut cases = Vec::new();
    for (what, event) in steps.chain([("closing trailer", None)]) {
        let before = keeper.clone();
        act(&mut keeper, &event, &mut book);
        let (at, end) = (before.journal[0] as usize, keeper.journal[0] as usize);
        cases.push(Case {
            what: what.to_string(),
            keeper: before,
            past: book[..at].to_vec(),
            event,
            entry: book[at..end].to_vec(),
        });
    }
    cases
}

fn events() -> Vec<(&'static str, Event)> {
    let text: Vec<u8> = (0..1024).map(|i| b'0' + (i % 75) as u8).collect();
    let list = [vec![b'A'; 128], b"\n".to_vec()].concat().repeat(32);
    let number = 0xffff_ff00;
    vec![
        ("opening", Event::Open { connection: 0 }),
        (
            "delivery, with a frame",
            deliver(0, message(0, 0, 0x0100_4141, b"hislip0")),
        ),
        ("opening", Event::Open { connection: 1 }),
        ("delivery, with a frame", deliver(1, message(17, 0, 1, b""))),
        (
            "delivery of 1,040 bytes",
            deliver(0, message(7, 0, number, &text)),
        ),
        (
            "answer, 1,024 bytes and 16 shown",
            answer_beside(1, &text, 1, &text[..16]),
        ),
        ("clock", clock(1 << 60)),
        ("status", Event::Status { status: 0x41 }),
        ("watch above", watch(1, Watch::above(2.5))),
        ("watch outside", watch(1, Watch::outside(-1.0, 2.5))),
        ("watch off", watch(1, Watch::Off)),
        ("list of 4,128 bytes", Event::Patterns { text: list }),
        (
            "list of one",
            Event::Patterns {
                text: b"*IDN?".to_vec(),
            },
        ),
        ("cut", cut(1)),
    ]
}

/// How many entries the forward reader of the library finds.
fn found(book: &[u8]) -> u64 {
    let (mut at, mut count) = (0, 0);
    loop {
        // SAFETY: a borrowed slice that is only read.
        let entry = unsafe { hislip_journal_forward(book.as_ptr(), book.len(), at) };
        if entry.found == 0 {
            return count;
        }
        (at, count) = (entry.next, count + 1);
    }
}

/// The widths of the stores: the bytes from where one begins to where the next does.
fn widths(starts: &[usize], length: usize) -> Vec<usize> {
    let mut starts = starts.to_vec();
    starts.push(length);
    starts.dedup();
    starts.windows(2).map(|pair| pair[1] - pair[0]).collect()
}

#[test]
fn what_is_written_is_a_first_part_after_any_store() {
    let region = Region::new();
    for case in cases() {
        let mut starts = Vec::new();
        for k in 0..case.entry.len() {
            let mut keeper = case.keeper.clone();
            let before = keeper.journal;
            let words = keeper.journal.as_ptr();
            let stop = region.stop(&case, k, words, |book| act(&mut keeper, &case.event, book));
            let length = written(&stop, &case.entry);
            let length = length.unwrap_or_else(|| panic!("{}: byte {k}: not in order", case.what));
            assert_eq!(stop.words, before, "{}: words at byte {k}", case.what);
            let whole = [&case.past, &case.entry[..length]].concat();
            assert_eq!(found(&whole), before[2], "{}: byte {k}", case.what);
            let there = [&case.past[..], &stop.bytes].concat();
            assert_eq!(found(&there), before[2], "{}: byte {k}", case.what);
            starts.push(length);
        }
        let widths = widths(&starts, case.entry.len());
        let widest = widths.iter().max().expect("an entry has bytes");
        let (bytes, stores) = (case.entry.len(), widths.len());
        println!(
            "{}: {bytes} bytes, {stores} stores of at most {widest}",
            case.what
        );
    }
}

/// A writer that stores the entry's bytes in the order of these places: whether it is taken for ascending.
fn is_ascending(region: &Region, case: &Case, order: &[usize]) -> bool {
    let words = [0; 4];
    (0..case.entry.len()).all(|k| {
        let stop = region.stop(case, k, words.as_ptr(), |book| {
            let entry = &mut book[case.past.len()..];
            for &place in order {
                // SAFETY: a place of the slice; volatile, so that the stores stay apart and in this order.
                unsafe { (&raw mut entry[place]).write_volatile(case.entry[place]) };
            }
        });
        written(&stop, &case.entry).is_some()
    })
}

#[test]
fn any_other_order_is_seen() {
    let region = Region::new();
    let cases = cases();
    let case = &cases[1];
    let ascending: Vec<usize> = (0..case.entry.len()).collect();
    assert!(is_ascending(&region, case, &ascending));
    let changes: [(&str, fn(&mut [usize])); 5] = [
        ("descending", |order| order.reverse()),
        ("the sum first", |order| order.rotate_right(4)),
        ("the length last", |order| order.rotate_left(4)),
        ("two neighbours", |order| order.swap(20, 21)),
        ("a part's end first", |order| order[13..40].rotate_right(8)),
    ];
    for (what, change) in changes {
        let mut order = ascending.clone();
        change(&mut order);
        assert!(!is_ascending(&region, case, &order), "{what}");
    }
}
