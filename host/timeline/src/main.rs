//! `timeline LIST PICTURE` draws a list of events with their answers (`timeline::list` has the form;
//! `conform list SEED` writes one) as an SVG picture, one lane a session. `timeline LOG PICTURE [FROM [TO]]`
//! does the same for what `gateway --log` wrote, or for its lines from one UTC time to another.

use std::fs;
use std::io::Write;
use std::process::ExitCode;

use timeline::log::{is_log, Window};

const USAGE: &str = "\
usage: timeline LIST PICTURE
       timeline LOG PICTURE [FROM [TO]]    times as in the log: 2026-11-16T06:50";

fn picture(text: &str, window: &[String]) -> Result<String, String> {
    if is_log(text) {
        let from = window.first().map_or("", String::as_str);
        let to = window.get(1).map(String::as_str);
        return timeline::draw_log(text, Window { from, to });
    }
    match window {
        [] => timeline::list::read(text).map(|list| timeline::draw(&list)),
        _ => Err("times are for a gateway's log, and this is none".into()),
    }
}

fn run(from: &str, to: &str, window: &[String]) -> Result<(), String> {
    let text = fs::read_to_string(from).map_err(|error| format!("{from}: {error}"))?;
    let drawn = picture(&text, window).map_err(|what| format!("{from}: {what}"))?;
    fs::write(to, drawn).map_err(|error| format!("{to}: {error}"))
}

fn main() -> ExitCode {
    let words = std::env::args_os().skip(1);
    let words: Vec<String> = words
        .map(|word| word.to_string_lossy().into_owned())
        .collect();
    let (from, to, window) = match &words[..] {
        [from, to, window @ ..] if window.len() <= 2 => (from, to, window),
        _ => {
            eprintln!("{USAGE}");
            return ExitCode::from(2);
        }
    };
    match run(from, to, window) {
        Ok(()) => {
            let _ = writeln!(std::io::stdout(), "timeline: {from} is drawn in {to}");
            ExitCode::SUCCESS
        }
        Err(what) => {
            eprintln!("timeline: {what}");
            ExitCode::FAILURE
        }
    }
}
