//! Allowed commands, over TCP: what is not in the list is answered Error 128 and never reaches the meter.

mod common;

use std::path::{Path, PathBuf};
use std::time::Duration;

use common::client::{receive, Client};
use common::program::{run, Program};
use common::{settings, Running};
use gateway::allow::of_file;
use gateway::instrument::simulated::Simulated;
use gateway::Settings;

const ERROR: u8 = 3;
const NOT_ALLOWED: u8 = 128;

/// A list of the folder `lists`.
fn list(name: &str) -> String {
    let folder = Path::new(env!("CARGO_MANIFEST_DIR")).join("lists");
    folder.join(name).display().to_string()
}

fn allowing(patterns: &[&str]) -> Running {
    let patterns = patterns.iter().map(|pattern| pattern.as_bytes().to_vec());
    let settings = Settings {
        allow: Some(patterns.collect()),
        ..settings()
    };
    Running::with(&settings, Box::new(Simulated::new(Duration::ZERO)))
}

/// The command is answered with an Error, on the synchronous channel. That the last answer was delivered is told
/// before it: the server does not read it in a message that it refuses.
fn refused(client: &mut Client, command: &str) {
    client.status();
    client.send(7, command.as_bytes());
    let told = receive(&mut client.sync);
    assert_eq!((told.kind, told.code), (ERROR, NOT_ALLOWED), "{command}");
}

#[test]
fn what_is_not_allowed_never_reaches_the_meter() {
    let gateway = allowing(&["READ?", "FORMat[:DATA]?", "*IDN?"]);
    let mut client = gateway.open();
    assert_eq!(client.query("read?"), "+1.25000000E+00");
    refused(&mut client, "FORM REAL");
    assert!(
        gateway.logged("session 1 DataEND ffffff02: Error 128 sent: \"FORM REAL\" is not allowed")
    );
    assert_eq!(
        client.query("FORMAT:DATA?"),
        "ASC,9",
        "the count has gone on"
    );
    for command in ["", "READ", "*RST", "READ?;*RST", ":READ?", "SYST:ERR?"] {
        refused(&mut client, command);
    }
    assert_eq!(client.query("*IDN? now"), "EXAMPLE,SIMULATED METER,0,1.0");
    client.send(12, b"");
    assert!(
        client.answer().starts_with("+1.25"),
        "a trigger is no command"
    );
}

#[test]
fn an_empty_list_allows_nothing_and_none_all() {
    let gateway = allowing(&[]);
    let mut client = gateway.open();
    refused(&mut client, "*IDN?");
    let open = Running::start();
    assert!(open.open().query("*IDN?;*TST?").ends_with(";0"));
}

#[test]
fn the_lists_of_the_folder_are_good() {
    for (name, count) in [
        ("ieee488_2.txt", 14),
        ("voltmeter.txt", 32),
        ("read_only.txt", 12),
    ] {
        let read = of_file(&list(name)).expect(name);
        assert_eq!(read.patterns.len(), count, "{name}");
    }
}

/// What the simulated meter knows, the voltmeter's list allows.
#[test]
fn a_voltmeters_tree() {
    let program = Program::start("127.0.0.1:0", &["--allow", &list("voltmeter.txt")]);
    let mut client = Client::open(program.address.parse().expect("an address"));
    for command in ["*RST", "VOLT:RANG 8", "SAMP:COUN 2", "*CLS"] {
        client.send(7, command.as_bytes());
    }
    assert_eq!(client.query("voltage:dc:range?"), "+8.00000000E+00");
    assert_eq!(client.query("FORM?"), "ASC,9");
    assert_eq!(client.query("SYST:ERR?"), "+0,\"No error\"");
    refused(&mut client, "DISPlay:TEXT \"hello\"");
}

fn scratch(name: &str, text: &str) -> String {
    let file: PathBuf = Path::new(env!("CARGO_TARGET_TMPDIR")).join(name);
    std::fs::write(&file, text).expect("written");
    file.display().to_string()
}

#[test]
fn a_bad_file_is_told_at_the_start() {
    let bad = scratch("bad.txt", "# commands\n*IDN?\nMEASure[:VOLTage?]\n");
    let (code, _, said) = run(&["--listen", "127.0.0.1:0", "--allow", &bad]);
    assert_eq!(code, Some(1));
    let told = [
        &format!("gateway: {bad}:3:17: refusal 11: command pattern 1 goes wrong at byte 16"),
        "MEASure[:VOLTage?]",
        "                ^",
    ];
    assert_eq!(said.lines().collect::<Vec<_>>(), told);
    let many = scratch("many.txt", &"*IDN?\n".repeat(33));
    let (code, _, said) = run(&["--listen", "127.0.0.1:0", "--allow", &many]);
    assert_eq!(code, Some(1));
    assert!(
        said.contains(":33:1: refusal 12: above 32 command patterns"),
        "{said}"
    );
    let (code, _, said) = run(&["--allow", "/no/such/file"]);
    assert_eq!(code, Some(1));
    assert!(said.contains("cannot read /no/such/file"), "{said}");
}
