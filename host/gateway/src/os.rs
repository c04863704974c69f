//! The system calls that std has no name for. The numbers are Linux's. Nothing else in the gateway is
//! unsafe.

use std::ffi::{c_int, c_short, c_ulong, c_void};
use std::io::{Error, Result};
use std::net::{TcpListener, TcpStream};
use std::os::fd::{AsRawFd, RawFd};

#[cfg(not(target_os = "linux"))]
compile_error!("another system has other numbers");

const SOL_SOCKET: c_int = 1;
const SO_KEEPALIVE: c_int = 9;
const IPPROTO_TCP: c_int = 6;
const TCP_KEEPIDLE: c_int = 4;
const TCP_KEEPINTVL: c_int = 5;
const TCP_USER_TIMEOUT: c_int = 18;
const MSG_DONTWAIT: c_int = 0x40;
const MSG_NOSIGNAL: c_int = 0x4000;
const SHUT_RDWR: c_int = 2;
const POLLIN: c_short = 1;
const POLLRDHUP: c_short = 0x2000;
const SIG_BLOCK: c_int = 0;
pub const SIGINT: c_int = 2;
pub const SIGTERM: c_int = 15;

/// A peer that is silent so long is asked whether it is there, and again so often.
const KEEPALIVE_IDLE_SECONDS: c_int = 10;
const KEEPALIVE_STEP_SECONDS: c_int = 5;
/// A peer that does not answer that, that does not acknowledge what was sent, or that leaves a full
/// socket unread so long is given up. IVI-6.1 finds 40 to 120 seconds reasonable.
const GIVEN_UP_AFTER_MS: c_int = 60_000;

#[repr(C)]
struct PollFd {
    fd: RawFd,
    events: c_short,
    revents: c_short,
}

/// At least as large and as strictly aligned as any Linux `sigset_t`.
#[repr(C)]
struct SignalSet([u64; 16]);

extern "C" {
    fn setsockopt(fd: c_int, level: c_int, name: c_int, value: *const c_void, length: u32)
        -> c_int;
    fn send(fd: c_int, bytes: *const c_void, length: usize, flags: c_int) -> isize;
    fn poll(fds: *mut PollFd, count: c_ulong, timeout: c_int) -> c_int;
    fn shutdown(fd: c_int, how: c_int) -> c_int;
    fn sigemptyset(set: *mut SignalSet) -> c_int;
    fn sigaddset(set: *mut SignalSet, signal: c_int) -> c_int;
    fn pthread_sigmask(how: c_int, set: *const SignalSet, old: *mut SignalSet) -> c_int;
    fn sigwait(set: *const SignalSet, signal: *mut c_int) -> c_int;
}

fn set(stream: &TcpStream, level: c_int, name: c_int, value: c_int) -> Result<()> {
    let length = size_of::<c_int>() as u32;
    // SAFETY: the descriptor is open while `stream` lives; `value` has the length given.
    let done = unsafe {
        let value = (&raw const value).cast();
        setsockopt(stream.as_raw_fd(), level, name, value, length)
    };
    match done {
        0 => Ok(()),
        _ => Err(Error::last_os_error()),
    }
}

/// Lets the system find out that the other side is gone without a word.
pub fn keep_alive(stream: &TcpStream) -> Result<()> {
    set(stream, SOL_SOCKET, SO_KEEPALIVE, 1)?;
    set(stream, IPPROTO_TCP, TCP_KEEPIDLE, KEEPALIVE_IDLE_SECONDS)?;
    set(stream, IPPROTO_TCP, TCP_KEEPINTVL, KEEPALIVE_STEP_SECONDS)?;
    set(stream, IPPROTO_TCP, TCP_USER_TIMEOUT, GIVEN_UP_AFTER_MS)
}

/// Writes what the socket takes without waiting; how many bytes that was.
pub fn send_now(stream: &TcpStream, bytes: &[u8]) -> Result<usize> {
    let flags = MSG_DONTWAIT | MSG_NOSIGNAL;
    let (start, length) = (bytes.as_ptr().cast(), bytes.len());
    // SAFETY: the descriptor is open while `stream` lives; the bytes have the length given.
    let sent = unsafe { send(stream.as_raw_fd(), start, length, flags) };
    usize::try_from(sent).map_err(|_| Error::last_os_error())
}

/// Whether one of these, or an error, is to be seen on the socket now.
fn sees(stream: &TcpStream, events: c_short) -> bool {
    let mut asked = PollFd {
        fd: stream.as_raw_fd(),
        events,
        revents: 0,
    };
    // SAFETY: one entry, which lives through the call; a timeout of 0 returns at once.
    unsafe { poll(&raw mut asked, 1, 0) > 0 }
}

/// The other side has ended the connection, even if bytes are still unread.
pub fn hung_up(stream: &TcpStream) -> bool {
    sees(stream, POLLRDHUP)
}

/// Nothing has come, neither bytes nor the end.
pub fn is_quiet(stream: &TcpStream) -> bool {
    !sees(stream, POLLIN | POLLRDHUP)
}

/// Wakes the thread that waits in `accept`.
pub fn wake(listener: &TcpListener) {
    // SAFETY: the descriptor is open while `listener` lives.
    unsafe { shutdown(listener.as_raw_fd(), SHUT_RDWR) };
}

/// The signals that end the gateway, kept back from every thread that is started later.
pub struct Endings(SignalSet);

impl Endings {
    pub fn keep_back() -> Endings {
        let mut set = SignalSet([0; 16]);
        // SAFETY: the set is large enough and lives through the calls; no old mask is asked for.
        unsafe {
            sigemptyset(&raw mut set);
            sigaddset(&raw mut set, SIGINT);
            sigaddset(&raw mut set, SIGTERM);
            pthread_sigmask(SIG_BLOCK, &raw const set, std::ptr::null_mut());
        }
        Endings(set)
    }

    /// Waits for one of them.
    pub fn wait(&self) -> Option<c_int> {
        let mut signal = 0;
        // SAFETY: the set was filled by `keep_back`.
        let done = unsafe { sigwait(&raw const self.0, &raw mut signal) };
        (done == 0).then_some(signal)
    }
}
