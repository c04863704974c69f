//! A small instrument on a raw SCPI socket. It answers `*IDN?`, `ECHO? n` with n, `SLOW? n` with n after
//! a pause, `BLOCK?` with a block that holds line ends, `WINDOWS?` with a
//! carriage return before the line feed, `FLAKY? n` with n, or late, or by hanging up, `NEVER?` not
//! at all and `BYE?` by hanging up.
//! Every line is kept.

use std::io::{BufRead, BufReader, Write};
use std::net::{Shutdown, SocketAddr, TcpListener, TcpStream};
use std::sync::atomic::{AtomicBool, Ordering};
use std::sync::{Arc, Mutex};
use std::thread::spawn;
use std::time::Duration;

pub const SLOW: Duration = Duration::from_millis(400);
pub const FLAKY: Duration = Duration::from_millis(300);

#[derive(Default)]
struct Shared {
    lines: Mutex<Vec<String>>,
    sockets: Mutex<Vec<TcpStream>>,
    /// Connections are closed at once.
    away: AtomicBool,
}

pub struct ScpiServer {
    pub address: SocketAddr,
    shared: Arc<Shared>,
}

impl ScpiServer {
    pub fn start() -> ScpiServer {
        let listener = TcpListener::bind("127.0.0.1:0").expect("a free port");
        let address = listener.local_addr().expect("bound");
        let shared = Arc::new(Shared::default());
        let own = Arc::clone(&shared);
        spawn(move || {
            for stream in listener.incoming().flatten() {
                if own.away.load(Ordering::Relaxed) {
                    continue;
                }
                let clone = stream.try_clone().expect("a socket");
                own.sockets.lock().expect("not poisoned").push(clone);
                let own = Arc::clone(&own);
                spawn(move || serve(stream, &own));
            }
        });
        ScpiServer { address, shared }
    }

    /// Hangs up and answers nobody, until it comes back.
    pub fn goes_away(&self) {
        self.shared.away.store(true, Ordering::Relaxed);
        for socket in self.shared.sockets.lock().expect("not poisoned").drain(..) {
            let _ = socket.shutdown(Shutdown::Both);
        }
    }

    pub fn comes_back(&self) {
        self.shared.away.store(false, Ordering::Relaxed);
    }

    pub fn lines(&self) -> Vec<String> {
        self.shared.lines.lock().expect("not poisoned").clone()
    }
}

enum Reaction {
    Answer(Vec<u8>),
    Silence,
    HangUp,
}

fn reaction(line: &str) -> Reaction {
    let (name, argument) = line.split_once(' ').unwrap_or((line, ""));
    let echo = Reaction::Answer(argument.as_bytes().to_vec());
    let flaky = argument.parse::<u32>().unwrap_or(0) % 30;
    match name {
        "*IDN?" => Reaction::Answer(b"TEST,SCPI SERVER,1,2".to_vec()),
        "ECHO?" => echo,
        "SLOW?" => {
            std::thread::sleep(SLOW);
            echo
        }
        "BLOCK?" => Reaction::Answer(b"#18\n\r\n;\"#\n\r".to_vec()),
        "WINDOWS?" => Reaction::Answer(b"1\r".to_vec()),
        "LONG?" => Reaction::Answer(vec![b'x'; 5000]),
        "FLAKY?" if matches!(flaky, 3 | 13 | 23) => Reaction::HangUp,
        "FLAKY?" => {
            if flaky == 7 {
                std::thread::sleep(FLAKY);
            }
            echo
        }
        "BYE?" => Reaction::HangUp,
        _ => Reaction::Silence,
    }
}

fn serve(mut stream: TcpStream, shared: &Shared) {
    let lines = BufReader::new(stream.try_clone().expect("a socket")).lines();
    for line in lines.map_while(Result::ok) {
        shared
            .lines
            .lock()
            .expect("not poisoned")
            .push(line.clone());
        match reaction(&line) {
            Reaction::Answer(answer) => {
                let sent = stream.write_all(&[&answer[..], b"\n"].concat());
                if sent.is_err() {
                    return;
                }
            }
            Reaction::Silence => {}
            Reaction::HangUp => {
                let _ = stream.shutdown(Shutdown::Both);
                return;
            }
        }
    }
}
