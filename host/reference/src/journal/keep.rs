//! An event and its entry in one call.

use crate::event::{Event, Reply};
use crate::journal::events::{recorded, replayable};
use crate::journal::layout;
use crate::journal::writer::{Kept, Writer};
use crate::limits::OUTPUT;
use crate::mode::Fresh;
use crate::server::Server;
use crate::subject::Subject;

/// Where the entries go: the writer's words and the book, both lent.
pub struct Book<'a> {
    pub writer: &'a mut Writer,
    pub bytes: &'a mut [u8],
}

/// Does an event on what a journal shows of it, and writes its entry. A refused event has none, and is told
/// as written. With "no room" and "closed" what the event did stands.
pub fn keep(
    server: &mut dyn Subject,
    event: &Event,
    out: &mut [u8],
    book: &mut Book,
) -> (Reply, Kept) {
    let recorded = recorded(event);
    let shown = replayable(recorded.clone());
    let reply = server.apply(&shown, out);
    if reply.refusal != 0 {
        return (reply, Kept::Written);
    }
    let body = layout::body(&recorded, &out[..reply.output as usize]);
    (reply, book.writer.append(book.bytes, &body))
}

/// A reference server with a book of its own, for tests and tools.
pub struct Keeping {
    server: Server,
    writer: Writer,
    book: Vec<u8>,
    out: [u8; OUTPUT],
}

impl Keeping {
    /// A fresh server and a new journal with so many bytes of room.
    pub fn new(fresh: Fresh, room: usize) -> Keeping {
        Keeping {
            server: <Server as Subject>::new(fresh),
            writer: Writer::default(),
            book: vec![0; room],
            out: [0; OUTPUT],
        }
    }

    pub fn event(&mut self, event: &Event) -> (Reply, Kept) {
        let mut book = Book {
            writer: &mut self.writer,
            bytes: &mut self.book,
        };
        keep(&mut self.server, event, &mut self.out, &mut book)
    }

    /// The bytes written so far.
    pub fn written(&self) -> &[u8] {
        &self.book[..self.writer.written as usize]
    }

    /// The closed journal.
    pub fn close(mut self) -> Vec<u8> {
        self.writer.close(&mut self.book);
        self.book.truncate(self.writer.written as usize);
        self.book
    }
}
