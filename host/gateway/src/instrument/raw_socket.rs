//! An instrument on a raw SCPI socket: lines out, lines back. A question whose answer did not come is
//! followed by a new connection, so that a late answer cannot be taken for the next one's.

use std::io::{ErrorKind, Read, Write};
use std::net::{Shutdown, TcpStream, ToSocketAddrs};

use super::scpi::{asks, commands, line, spells, LineEnd};
use super::{ErrorQueue, Fault, Instrument, Patience, Request};
use crate::os;

/// The port that SCPI sockets listen on.
pub const PORT: u16 = 5025;
const LONGEST_ANSWER: usize = 16 << 20;
const AT_ONCE: usize = 64 * 1024;

/// An instrument on a raw SCPI socket, connected when it is first asked and anew after a failure.
pub struct RawSocket {
    address: String,
    stream: Option<TcpStream>,
    /// The gateway's own: the instrument's are read by asking it.
    errors: ErrorQueue,
}

type Answer = Result<Option<Vec<u8>>, Fault>;

/// What a failed call on the socket means.
fn fault(error: &std::io::Error, patience: &Patience) -> Fault {
    match (patience.left(), error.kind()) {
        (Err(fault), _) => fault,
        (_, ErrorKind::WouldBlock | ErrorKind::TimedOut) => Fault::TimedOut,
        _ => Fault::Missing,
    }
}

impl RawSocket {
    /// `host:port`. The connection is made when it is needed, and again when it was lost.
    pub fn new(address: String) -> RawSocket {
        RawSocket {
            address,
            stream: None,
            errors: ErrorQueue::default(),
        }
    }

    fn connect(&self, patience: &Patience) -> Result<TcpStream, Fault> {
        let addresses = self.address.to_socket_addrs();
        for address in addresses.map_err(|_| Fault::Missing)? {
            if let Ok(stream) = TcpStream::connect_timeout(&address, patience.left()?) {
                let ready = stream.set_nodelay(true).and(os::keep_alive(&stream));
                ready.map_err(|_| Fault::Missing)?;
                return Ok(stream);
            }
        }
        Err(Fault::Missing)
    }

    /// Sends a line and, if it asks, reads the answer.
    fn exchange(&self, stream: &mut TcpStream, text: &[u8], patience: &Patience) -> Answer {
        patience.watch(stream)?;
        let wrong = |error: std::io::Error| fault(&error, patience);
        stream
            .set_write_timeout(Some(patience.left()?))
            .map_err(wrong)?;
        stream.write_all(&line(text)).map_err(wrong)?;
        match asks(text) {
            true => read_answer(stream, patience).map(Some),
            false => Ok(None),
        }
    }

    /// The connection is kept only if all went well.
    fn send(&mut self, text: &[u8], patience: &Patience) -> Answer {
        let kept = self.stream.take().filter(os::is_quiet);
        let done = match kept {
            Some(stream) => Ok(stream),
            None => self.connect(patience),
        };
        let done = done.and_then(|mut stream| {
            let answer = self.exchange(&mut stream, text, patience)?;
            self.stream = Some(stream);
            Ok(answer)
        });
        done.inspect_err(|fault| {
            if *fault != Fault::Cleared {
                self.errors.push(*fault);
            }
        })
    }

    /// The gateway's own errors are told first; `*CLS` forgets them.
    fn message(&mut self, text: &[u8], patience: &Patience) -> Answer {
        let commands = commands(text);
        let is = |command: &[u8], pattern| {
            std::str::from_utf8(command).is_ok_and(|command| spells(command, pattern))
        };
        let for_errors = |one| is(one, "SYSTem:ERRor?") || is(one, "SYSTem:ERRor:NEXT?");
        if matches!(commands[..], [one] if for_errors(one)) && !self.errors.is_empty() {
            return Ok(Some(self.errors.take_oldest().into_bytes()));
        }
        if commands.iter().any(|command| is(command, "*CLS")) {
            self.errors.clear();
        }
        self.send(text, patience)
    }
}

/// Bytes up to the line feed that ends the answer, without it.
fn read_answer(stream: &mut TcpStream, patience: &Patience) -> Result<Vec<u8>, Fault> {
    let (mut answer, mut line_end) = (Vec::new(), LineEnd::default());
    let mut bytes = vec![0; AT_ONCE];
    loop {
        let left = Some(patience.left()?);
        let wrong = |error: std::io::Error| fault(&error, patience);
        stream.set_read_timeout(left).map_err(wrong)?;
        let count = match stream.read(&mut bytes) {
            Ok(0) => return Err(patience.left().err().unwrap_or(Fault::Missing)),
            Ok(count) => count,
            Err(error) if error.kind() == ErrorKind::Interrupted => 0,
            Err(error) => return Err(wrong(error)),
        };
        let end = line_end.find(&bytes[..count]);
        answer.extend_from_slice(&bytes[..end.unwrap_or(count)]);
        if let Some(end) = end {
            if end + 1 != count {
                // More than one answer: the next question gets a new connection.
                let _ = stream.shutdown(Shutdown::Both);
            }
            let length = answer.len() - usize::from(line_end.after_return);
            answer.truncate(length);
            return Ok(answer);
        }
        if answer.len() > LONGEST_ANSWER {
            return Err(Fault::TooMuchData);
        }
    }
}

impl Instrument for RawSocket {
    fn name(&self) -> String {
        format!("the instrument at tcp://{}", self.address)
    }

    fn trigger_answers(&self) -> bool {
        false
    }

    fn perform(&mut self, request: &Request, patience: &Patience) -> Answer {
        match request {
            Request::Message(text) => self.message(text, patience),
            Request::Trigger => self.send(b"*TRG", patience),
            Request::Dropped(fault) => {
                self.errors.push(*fault);
                Ok(None)
            }
        }
    }

    fn status(&self) -> u8 {
        self.errors.status()
    }
}
