//! One TCP connection: opened, written and read in bounded time, failures told in words.

use std::io::Write;
use std::net::{TcpStream, ToSocketAddrs};
use std::time::Duration;

use crate::names::FATAL_ERROR;
use crate::{Message, Trouble};

pub type Result<T> = std::result::Result<T, Trouble>;

pub fn connect(to: &str, patience: Duration) -> Result<TcpStream> {
    let cannot = |why: String| Trouble::CannotConnect { to: to.into(), why };
    let addresses = to.to_socket_addrs().map_err(|e| cannot(e.to_string()))?;
    let mut last = cannot("the name has no address".into());
    for address in addresses {
        match TcpStream::connect_timeout(&address, patience) {
            Ok(stream) => {
                let ready = stream.set_nodelay(true);
                ready.map_err(|e| cannot(e.to_string()))?;
                return Ok(stream);
            }
            Err(error) => last = cannot(error.to_string()),
        }
    }
    Err(last)
}

pub fn send(stream: &mut TcpStream, message: &[u8]) -> Result<()> {
    let sent = stream.write_all(message);
    sent.map_err(|error| Trouble::of(error, "room to send"))
}

/// The next message, which must be of type `kind`.
pub fn receive(stream: &mut TcpStream, kind: u8, what: &'static str) -> Result<Message> {
    let message = Message::read(stream).map_err(|error| Trouble::of(error, what))?;
    match message.kind == kind {
        true => Ok(message),
        false => Err(Trouble::told(message, what)),
    }
}

/// Bounds every later wait on the connection.
pub fn wait_at_most(stream: &TcpStream, longest: Duration) -> Result<()> {
    let longest = Some(longest.max(Duration::from_millis(1)));
    let set = stream.set_read_timeout(longest);
    set.and(stream.set_write_timeout(longest))
        .map_err(Trouble::Connection)
}

/// Drops messages until one of type `kind` has come, which is returned.
pub fn drop_until(stream: &mut TcpStream, kind: u8, what: &'static str) -> Result<Message> {
    loop {
        let message = Message::read(stream).map_err(|error| Trouble::of(error, what))?;
        match message.kind {
            FATAL_ERROR => return Err(Trouble::told(message, what)),
            found if found == kind => return Ok(message),
            _ => {}
        }
    }
}
