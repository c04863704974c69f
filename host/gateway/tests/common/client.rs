//! A client by IVI-6.1's client rules in synchronized mode: message numbers from ffffff00 by two,
//! answers checked against the last number sent, RMT-delivered told once, device clear in its steps.

use std::io::{ErrorKind, Read, Write};
use std::net::{SocketAddr, TcpStream};
use std::time::Duration;

pub const FIRST: u32 = 0xffff_ff00;
const BEFORE_FIRST: u32 = 0xffff_fefe;
/// Longest wait for what must come, on a machine that may be busy.
pub const PATIENCE: Duration = Duration::from_secs(30);

#[derive(Debug, PartialEq, Eq)]
pub struct Message {
    pub kind: u8,
    pub code: u8,
    pub parameter: u32,
    pub payload: Vec<u8>,
}

pub struct Client {
    pub sync: TcpStream,
    pub asynchronous: TcpStream,
    pub session: u16,
    /// The next MessageID, and the most recent one sent.
    next: u32,
    pub sent: u32,
    /// An answer's end was delivered, and no message has told the server so yet.
    pub rmt_delivered: bool,
    /// The mode that the server told last.
    pub overlap: bool,
}

pub fn bytes(kind: u8, code: u8, parameter: u32, payload: &[u8]) -> Vec<u8> {
    let mut bytes = vec![b'H', b'S', kind, code];
    bytes.extend(parameter.to_be_bytes());
    bytes.extend((payload.len() as u64).to_be_bytes());
    bytes.extend(payload);
    bytes
}

pub fn connect(to: SocketAddr) -> TcpStream {
    let stream = TcpStream::connect(to).expect("the gateway listens");
    stream.set_nodelay(true).expect("a live socket");
    stream.set_read_timeout(Some(PATIENCE)).expect("not zero");
    stream
}

pub fn receive(stream: &mut TcpStream) -> Message {
    let mut header = [0; 16];
    stream.read_exact(&mut header).expect("a header in time");
    assert_eq!(&header[..2], b"HS");
    let length = u64::from_be_bytes(header[8..].try_into().expect("eight bytes"));
    let mut payload = vec![0; length as usize];
    stream.read_exact(&mut payload).expect("a payload in time");
    Message {
        kind: header[2],
        code: header[3],
        parameter: u32::from_be_bytes(header[4..8].try_into().expect("four bytes")),
        payload,
    }
}

/// Nothing arrives for a while.
pub fn silent(stream: &mut TcpStream) -> bool {
    stream
        .set_read_timeout(Some(Duration::from_millis(120)))
        .expect("not zero");
    let got = stream.peek(&mut [0]);
    stream.set_read_timeout(Some(PATIENCE)).expect("not zero");
    got.is_err()
}

/// The other side has closed: the stream ends, or the connection was reset.
pub fn closed(stream: &mut TcpStream) -> bool {
    match stream.read(&mut [0]) {
        Ok(count) => count == 0,
        Err(error) => !matches!(error.kind(), ErrorKind::WouldBlock | ErrorKind::TimedOut),
    }
}

/// The other side has closed in order: the stream ends and is not reset.
pub fn closed_in_order(stream: &mut TcpStream) -> bool {
    matches!(stream.read(&mut [0]), Ok(0))
}

impl Client {
    pub fn open(to: SocketAddr) -> Client {
        Client::of_vendor(to, *b"EX")
    }

    /// Opens a session with a server that names this vendor.
    pub fn of_vendor(to: SocketAddr, vendor: [u8; 2]) -> Client {
        let mut sync = connect(to);
        let hello = bytes(0, 0, 0x0100_5858, b"hislip0");
        sync.write_all(&hello).expect("sent");
        let opened = receive(&mut sync);
        assert!(opened.kind == 1 && opened.code <= 1, "{opened:?}");
        let session = opened.parameter as u16;
        let mut asynchronous = connect(to);
        let join = bytes(17, 0, session.into(), b"");
        asynchronous.write_all(&join).expect("sent");
        let joined = receive(&mut asynchronous);
        let vendor = u16::from_be_bytes(vendor).into();
        assert_eq!((joined.kind, joined.parameter), (18, vendor));
        Client {
            sync,
            asynchronous,
            session,
            next: FIRST,
            sent: BEFORE_FIRST,
            rmt_delivered: false,
            overlap: opened.code == 1,
        }
    }

    /// Sends Data, DataEND or Trigger with the next number.
    pub fn send(&mut self, kind: u8, payload: &[u8]) {
        self.sent = self.next;
        self.next = self.next.wrapping_add(2);
        let rmt = u8::from(std::mem::take(&mut self.rmt_delivered));
        let message = bytes(kind, rmt, self.sent, payload);
        self.sync.write_all(&message).expect("sent");
    }

    /// A whole answer: Data until DataEND, each with the number of the most recent message sent.
    pub fn answer(&mut self) -> String {
        let mut text = Vec::new();
        loop {
            let message = receive(&mut self.sync);
            assert!(matches!(message.kind, 6 | 7), "{message:?}");
            assert_eq!(
                message.parameter, self.sent,
                "the answer to another question"
            );
            text.extend(message.payload);
            if message.kind == 7 {
                self.rmt_delivered = true;
                return String::from_utf8(text).expect("the meter speaks ASCII");
            }
        }
    }

    /// A whole answer as bytes, and the payload length of each message it came in.
    pub fn pieces(&mut self) -> (Vec<u8>, Vec<usize>) {
        let (mut bytes, mut lengths) = (Vec::new(), Vec::new());
        loop {
            let message = receive(&mut self.sync);
            assert_eq!(message.parameter, self.sent, "{message:?}");
            lengths.push(message.payload.len());
            bytes.extend(message.payload);
            match message.kind {
                6 => {}
                7 => break,
                other => panic!("type {other} in an answer"),
            }
        }
        self.rmt_delivered = true;
        (bytes, lengths)
    }

    /// Tells the server the largest payload this client takes; the server's own comes back.
    pub fn size(&mut self, size: u64) -> u64 {
        let answer = self.ask(15, 0, 0, &size.to_be_bytes());
        assert_eq!(answer.kind, 16);
        u64::from_be_bytes(answer.payload.try_into().expect("eight bytes"))
    }

    pub fn query(&mut self, command: &str) -> String {
        self.send(7, command.as_bytes());
        self.answer()
    }

    fn ask(&mut self, kind: u8, code: u8, parameter: u32, payload: &[u8]) -> Message {
        let message = bytes(kind, code, parameter, payload);
        self.asynchronous.write_all(&message).expect("sent");
        receive(&mut self.asynchronous)
    }

    pub fn request(&mut self, string: &[u8], milliseconds: u32) {
        let message = bytes(4, 1, milliseconds, string);
        self.asynchronous.write_all(&message).expect("sent");
    }

    pub fn lock_answer(&mut self) -> u8 {
        let answer = receive(&mut self.asynchronous);
        assert_eq!(answer.kind, 5);
        answer.code
    }

    pub fn lock(&mut self, string: &[u8], milliseconds: u32) -> u8 {
        self.request(string, milliseconds);
        self.lock_answer()
    }

    pub fn release(&mut self) -> u8 {
        let answer = self.ask(4, 0, self.sent, b"");
        assert_eq!(answer.kind, 5);
        answer.code
    }

    /// A release that names the next message, which is not sent yet; nothing answers it now.
    pub fn release_ahead(&mut self) {
        let message = bytes(4, 0, self.next, b"");
        self.asynchronous.write_all(&message).expect("sent");
    }

    pub fn status(&mut self) -> u8 {
        self.status_after(self.sent)
    }

    /// The status byte, asked with this number.
    pub fn status_after(&mut self, number: u32) -> u8 {
        let rmt = u8::from(std::mem::take(&mut self.rmt_delivered));
        let answer = self.ask(21, rmt, number, b"");
        assert_eq!(answer.kind, 22);
        answer.code
    }

    /// Exclusive held, and how many sessions hold a lock.
    pub fn lock_info(&mut self) -> (u8, u32) {
        let answer = self.ask(24, 0, 0, b"");
        assert_eq!(answer.kind, 25);
        (answer.code, answer.parameter)
    }

    /// Steps 2 to 8 of the client's device clear. The lock answers that come before the
    /// acknowledgement.
    pub fn device_clear(&mut self) -> Vec<u8> {
        let mut lock_answers = Vec::new();
        let mut acknowledged = self.ask(19, 0, 0, b"");
        while acknowledged.kind == 5 {
            lock_answers.push(acknowledged.code);
            acknowledged = receive(&mut self.asynchronous);
        }
        assert_eq!(acknowledged.kind, 23);
        self.sync.write_all(&bytes(8, 0, 0, b"")).expect("sent");
        let granted = loop {
            let message = receive(&mut self.sync);
            if message.kind == 9 {
                break message.code;
            }
        };
        self.overlap = granted == 1;
        (self.next, self.sent) = (FIRST, BEFORE_FIRST);
        self.rmt_delivered = false;
        lock_answers
    }
}
