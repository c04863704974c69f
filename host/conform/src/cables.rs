//! A program's bytes in pieces of every kind, and its cable dropped after every byte, while another
//! program waits for its locks.

use std::ops::Range;

use reference::limits::{CONNECTIONS, LOCK_STRING};
use reference::{Event, Server, Subject};

use crate::bout::{check_list, Failed, Pair, BENCH};
use crate::messages::{answer, clock, cut, deliver, header, lock, message, session};

const PIECES: [usize; 6] = [1, 3, 15, 16, 17, 2000];

/// The program is on the last two connections.
const SYNCHRONOUS: u32 = CONNECTIONS as u32 - 2;
const ASYNCHRONOUS: u32 = SYNCHRONOUS + 1;

/// What the program sends, and on which connection.
fn script() -> Vec<(u32, Vec<u8>)> {
    let mut too_large = header(7, 0, 0xffff_ff04, 1025);
    too_large.resize(16 + 1025, b'H');
    vec![
        (SYNCHRONOUS, message(0, 0, 0x0100_5858, b"hislip0")),
        (ASYNCHRONOUS, message(17, 0, 2, b"")),
        (ASYNCHRONOUS, message(4, 1, 0, &[b'c'; LOCK_STRING])),
        (ASYNCHRONOUS, message(4, 1, 0, b"")),
        (SYNCHRONOUS, message(6, 0, 0xffff_ff00, b"MEAS:")),
        (SYNCHRONOUS, message(7, 0, 0xffff_ff02, b"VOLT?")),
        (SYNCHRONOUS, too_large),
        (ASYNCHRONOUS, message(21, 1, 0xffff_ff04, b"")),
        // This release is ahead of its message; the next names one that was too large to act.
        (ASYNCHRONOUS, message(4, 0, 0xffff_ff06, b"")),
        (SYNCHRONOUS, message(12, 1, 0xffff_ff06, b"")),
        (ASYNCHRONOUS, message(4, 0, 0xffff_ff04, b"")),
        (ASYNCHRONOUS, message(19, 0, 0, b"")),
        (SYNCHRONOUS, message(6, 0, 0xffff_ff08, b"lost")),
        (SYNCHRONOUS, message(8, 0, 0, b"")),
        (ASYNCHRONOUS, message(4, 0, 0xffff_fefe, b"")),
        (SYNCHRONOUS, message(2, 1, 0, b"bye")),
    ]
}

/// Within the lock string and the too large payload every 40th byte will do.
const LONG: [Range<usize>; 2] = [60..305, 393..1403];

/// How many bytes the script has.
fn length() -> usize {
    script().iter().map(|(_, bytes)| bytes.len()).sum()
}

/// Builds a list as a host would: what is not taken is shown again.
struct Builder {
    list: Vec<Event>,
    server: Server,
    out: Vec<u8>,
    unread: [Vec<u8>; 2],
}

impl Builder {
    /// Session 1 is the other program; the last two connections are open for the script.
    fn new() -> Builder {
        let mut builder = Builder {
            list: Vec::new(),
            server: <Server as Subject>::new(BENCH),
            out: vec![0; 2048],
            unread: [Vec::new(), Vec::new()],
        };
        for event in session(2, 3, 1) {
            builder.push(event);
        }
        for connection in [SYNCHRONOUS, ASYNCHRONOUS] {
            builder.push(Event::Open { connection });
        }
        builder
    }

    fn push(&mut self, event: Event) -> u64 {
        let room = event.room();
        let reply = self.server.apply(&event, &mut self.out[..room]);
        self.list.push(event);
        reply.taken
    }

    /// A piece arrives; bytes are shown until none are taken.
    fn arrive(&mut self, connection: u32, piece: &[u8]) {
        let place = (connection - SYNCHRONOUS) as usize;
        self.unread[place].extend_from_slice(piece);
        loop {
            let taken = self.push(deliver(connection, self.unread[place].clone()));
            self.unread[place].drain(..taken as usize);
            if taken == 0 || self.unread[place].is_empty() {
                return;
            }
        }
    }

    /// The other program looks at what is left.
    fn probe(mut self) -> Vec<Event> {
        self.push(deliver(3, header(24, 0, 0, 0)));
        self.push(deliver(2, message(7, 0, 0xffff_ff00, b"*IDN?")));
        self.push(answer(1, b"x", 1));
        self.push(answer(2, b"x", 1));
        self.push(clock(1000));
        self.push(deliver(3, header(4, 0, 0xffff_ff00, 0)));
        self.list
    }
}

/// The script in pieces of this size, the cable dropped after so many bytes.
fn list(piece: usize, cut_after: usize) -> Vec<Event> {
    let mut builder = Builder::new();
    let mut left = cut_after;
    for (place, (connection, bytes)) in script().into_iter().enumerate() {
        if place == 4 {
            // Both locks are held by now; the other program waits for them.
            builder.push(lock(3, b"", 900));
        }
        let bytes = &bytes[..bytes.len().min(left)];
        for piece in bytes.chunks(piece) {
            builder.arrive(connection, piece);
        }
        left -= bytes.len();
        if left == 0 {
            builder.push(cut(connection));
            break;
        }
    }
    builder.probe()
}

/// Returns the events run.
pub fn check(pair: Pair) -> Result<usize, Failed> {
    let mut count = 0;
    for piece in PIECES {
        for cut_after in
            (1..=length()).filter(|n| !LONG.iter().any(|long| long.contains(n)) || n % 40 == 0)
        {
            count += check_list(pair, BENCH, "cables", &list(piece, cut_after))?;
        }
    }
    Ok(count)
}

#[cfg(test)]
mod tests {
    use super::{length, list};
    use reference::{Event, Fresh, Reply, Server, Subject};

    /// Outcomes of the whole script in one piece size.
    fn outcomes(piece: usize) -> Vec<u64> {
        let mut server = <Server as Subject>::new(Fresh::BENCH);
        let mut out = [0; 2048];
        let mut found = Vec::new();
        for event in list(piece, length()) {
            let reply = server.apply(&event, &mut out[..event.room()]);
            if matches!(event, Event::Deliver { .. }) {
                found.push(reply.outcome);
            }
        }
        found
    }

    #[test]
    fn the_script_comes_to_what_it_says() {
        let one_piece = outcomes(2000);
        let count = |outcome| one_piece.iter().filter(|found| **found == outcome).count();
        assert_eq!(count(Reply::CLOSED), 1);
        assert_eq!(count(Reply::ERROR_SENT), 1);
        assert_eq!(count(Reply::SKIPPED), 1);
        assert_eq!(count(Reply::IGNORED), 1);
        assert_eq!(count(Reply::HELD), 0);
        assert!(count(Reply::ACTED_ON) >= 12);
        assert!(outcomes(1).len() >= length(), "byte by byte");
    }
}
