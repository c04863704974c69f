//! The program `query` against a gateway inside the test.

mod common;

use std::ffi::OsStr;
use std::fs::File;
use std::net::{SocketAddr, TcpListener};
use std::os::unix::ffi::OsStrExt;
use std::process::{Command, Stdio};
use std::thread::{spawn, JoinHandle};
use std::time::Duration;

use common::{done, query};
use gateway::instrument::simulated::Simulated;
use gateway::{Gateway, Log, Settings, Stopper};

struct Running {
    address: SocketAddr,
    stopper: Stopper,
    thread: Option<JoinHandle<()>>,
}

impl Running {
    fn start() -> Running {
        let settings = Settings {
            listen: "127.0.0.1:0".into(),
            ..Settings::default()
        };
        let simulated = Box::new(Simulated::new(Duration::ZERO));
        let gateway = Gateway::new(&settings, simulated, Log::default()).expect("a free port");
        Running {
            address: gateway.address(),
            stopper: gateway.stopper(),
            thread: Some(spawn(|| gateway.run())),
        }
    }
}

impl Drop for Running {
    fn drop(&mut self) {
        self.stopper.stop("the test is over");
        let ended = self.thread.take().map(JoinHandle::join);
        assert!(ended.is_some_and(|ended| ended.is_ok()) || std::thread::panicking());
    }
}

#[test]
fn every_step() {
    let gateway = Running::start();
    let to = gateway.address;
    assert_eq!(done(to, &["*IDN?"]), "EXAMPLE,SIMULATED METER,0,1.0\n");
    assert_eq!(done(to, &["query", "MEAS:VOLT:DC?"]), "+1.25000000E+00\n");
    assert_eq!(
        done(to, &["write", "NONSENSE", "SYST:ERR?"]),
        "-113,\"Undefined header\"\n"
    );
    assert_eq!(
        done(to, &["*RST", "trigger", "read", "status"]),
        "+1.25000001E+00\n0\n"
    );
    assert_eq!(
        done(to, &["write", "*IDN?", "clear", "*OPC?", "remote", "3"]),
        "1\n"
    );
    assert_eq!(
        done(
            to,
            &["--overlap", "*IDN?", "*OPC?", "status", "clear", "*OPC?"]
        ),
        "EXAMPLE,SIMULATED METER,0,1.0\n1\n0\n1\n"
    );
    let locking = ["lock", "cal", "0", "lock", "", "0", "lockinfo", "unlock"];
    assert_eq!(
        done(to, &[&locking[..], &["unlock", "lockinfo"]].concat()),
        "1 sessions hold a lock, exclusive lock\nexclusive lock released\nshared lock released\n\
         0 sessions hold a lock, no exclusive lock\n"
    );
}

#[test]
fn what_is_written_acts_although_the_program_ends() {
    let gateway = Running::start();
    for count in 2..22 {
        let setting = format!("SAMP:COUN {count}");
        done(gateway.address, &["write", &setting]);
        let mut seen = String::new();
        for _ in 0..100 {
            seen = done(gateway.address, &["SAMP:COUN?"]);
            if seen == format!("{count}\n") {
                break;
            }
        }
        assert_eq!(seen, format!("{count}\n"));
    }
}

#[test]
fn a_long_message_and_a_long_answer() {
    let gateway = Running::start();
    let long = format!("{}SAMP:COUN 500;:READ?", " ".repeat(5000));
    let answer = done(gateway.address, &[&long]);
    assert_eq!(answer.trim().split(',').count(), 500);
    assert!(answer
        .trim()
        .split(',')
        .all(|number| number.parse::<f64>().is_ok()));
}

#[test]
fn troubles_have_their_lines_and_numbers() {
    let gateway = Running::start();
    let to = gateway.address;
    let nobody = TcpListener::bind("127.0.0.1:0").and_then(|l| l.local_addr());
    let nobody = nobody.expect("a free port");
    let (status, out, err) = query(nobody, &["*IDN?"]);
    assert_eq!((status, &out[..]), (3, ""));
    assert!(
        err.starts_with(&format!("query: cannot connect to {nobody}: ")),
        "{err}"
    );
    let (status, _, err) = query(to, &["--timeout-ms", "100", "write", "*RST", "read"]);
    assert_eq!((status, &err[..]), (4, "query: time-out: no answer\n"));
    let (status, _, err) = query(to, &["--sub-address", "other", "*IDN?"]);
    let line = "query: FatalError 3: invalid initialization sequence\n";
    assert_eq!((status, &err[..]), (6, line));
    let (status, _, err) = query(to, &["unlock"]);
    assert_eq!((status, &err[..]), (1, "query: no lock to release\n"));
    let twice = ["lock", "", "0", "lock", "", "0"];
    let (status, _, err) = query(to, &twice);
    let line = "query: lock refused (AsyncLockResponse 3)\n";
    assert_eq!((status, &err[..]), (1, line));
}

#[test]
fn a_wrong_command_line_is_status_2() {
    let nowhere = "127.0.0.1:1".parse().expect("an address");
    for (arguments, line) in [
        (&[][..], "nothing to do"),
        (
            &["tigger"],
            "unknown step `tigger`; to send it: write 'tigger'",
        ),
        (&["--fast"], "unknown option --fast"),
        (&["write"], "write wants a value"),
        (
            &["lock", "a", "b"],
            "lock STRING MS wants a number, not `b`",
        ),
        (&["remote", "7"], "remote wants a code from 0 to 6, not 7"),
    ] {
        let (status, out, err) = query(nowhere, arguments);
        assert_eq!((status, &out[..]), (2, ""), "{arguments:?}");
        assert_eq!(err, format!("query: {line}; query --help says how\n"));
    }
    let (status, out, _) = query(nowhere, &["--help"]);
    assert!(status == 0 && out.starts_with("usage: query"));
}

/// Exit status of a run with this standard output.
fn status_printing_to(out: Stdio, to: &str, step: &[u8]) -> Option<i32> {
    let mut command = Command::new(env!("CARGO_BIN_EXE_query"));
    command.args(["--to", to]).arg(OsStr::from_bytes(step));
    let ran = command.stdout(out).stderr(Stdio::null()).status();
    ran.expect("the program runs").code()
}

#[test]
fn an_answer_that_cannot_be_printed_is_status_8() {
    let gateway = Running::start();
    let to = gateway.address.to_string();
    let full = File::options().write(true).open("/dev/full");
    let full = full.expect("Linux has it").into();
    assert_eq!(status_printing_to(full, &to, b"*IDN?"), Some(8));
}

#[test]
fn a_step_that_is_no_text_is_status_2() {
    let status = status_printing_to(Stdio::null(), "127.0.0.1:1", b"VOLT 1\xb5V");
    assert_eq!(status, Some(2));
}

#[test]
fn a_lock_of_another() {
    let gateway = Running::start();
    let settings = query::Settings {
        to: gateway.address.to_string(),
        sub_address: String::new(),
        patience: Duration::from_secs(2),
        overlap: false,
    };
    let mut holder = query::Client::open(&settings).expect("opens");
    holder.lock(b"", 0).expect("free");
    let (status, _, err) = query(gateway.address, &["lock", "", "50"]);
    assert_eq!((status, &err[..]), (1, "query: lock not granted in time\n"));
    let (status, _, err) = query(gateway.address, &["--timeout-ms", "100", "*IDN?"]);
    assert_eq!(
        (status, &err[..]),
        (4, "query: time-out: no answer\n"),
        "held"
    );
}
