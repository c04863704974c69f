//! The gateway as a program.

use std::io::{BufRead, BufReader, Read};
use std::process::{Child, Command, ExitStatus, Stdio};

use super::eventually;

pub struct Program {
    pub child: Child,
    pub address: String,
    /// Standard output after the first line, kept open and unread.
    pub output: Option<BufReader<std::process::ChildStdout>>,
}

pub fn gateway(arguments: &[&str]) -> Command {
    let mut command = Command::new(env!("CARGO_BIN_EXE_gateway"));
    command.args(arguments).stdin(Stdio::null());
    command
}

/// Exit status, standard output and standard error of a run that ends by itself.
pub fn run(arguments: &[&str]) -> (Option<i32>, String, String) {
    let output = gateway(arguments).output().expect("the program runs");
    let text = |bytes| String::from_utf8(bytes).expect("plain text");
    (
        output.status.code(),
        text(output.stdout),
        text(output.stderr),
    )
}

impl Program {
    /// Starts it on a free port and reads its first line for the address.
    pub fn start(listen: &str, arguments: &[&str]) -> Program {
        let mut command = gateway(&["--listen", listen]);
        command.args(arguments).stdout(Stdio::piped());
        let mut child = command.spawn().expect("the program starts");
        let mut output = BufReader::new(child.stdout.take().expect("piped"));
        let mut line = String::new();
        output.read_line(&mut line).expect("a first line");
        let rest = line.split("listens on ").nth(1).expect("an address");
        let address = rest.split(' ').next().expect("an address").into();
        Program {
            child,
            address,
            output: Some(output),
        }
    }

    pub fn signal(&self, name: &str) {
        let kill = format!("kill -{name} {}", self.child.id());
        let done = Command::new("sh").args(["-c", &kill]).status();
        assert!(done.expect("a shell").success());
    }

    pub fn ended(&mut self) -> Option<ExitStatus> {
        let mut status = None;
        eventually(|| {
            status = self.child.try_wait().expect("a child");
            status.is_some()
        });
        status
    }

    /// What it printed after the first line, to its end.
    pub fn printed(&mut self) -> String {
        let mut text = String::new();
        let mut output = self.output.take().expect("not yet read");
        output.read_to_string(&mut text).expect("plain text");
        text
    }
}

impl Drop for Program {
    fn drop(&mut self) {
        let _ = self.child.kill();
        let _ = self.child.wait();
    }
}
