//! Runs the program.

use std::net::SocketAddr;
use std::process::Command;

/// Exit status, standard output and standard error.
pub fn query(to: SocketAddr, arguments: &[&str]) -> (i32, String, String) {
    let to = to.to_string();
    let mut command = Command::new(env!("CARGO_BIN_EXE_query"));
    command.args(["--to", &to, "--timeout-ms", "2000"]);
    let output = command.args(arguments).output().expect("the program runs");
    let text = |bytes| String::from_utf8(bytes).expect("plain text");
    let status = output.status.code().expect("not killed");
    (status, text(output.stdout), text(output.stderr))
}

/// Standard output of a run that went well.
pub fn done(to: SocketAddr, arguments: &[&str]) -> String {
    let (status, out, err) = query(to, arguments);
    assert_eq!((status, &err[..]), (0, ""), "{arguments:?}");
    out
}
