//! What an entry says by itself, where it cannot be replayed.

use query::{names, words};
use reference::commands::lines;
use reference::event::frames;
use reference::journal::{layout, Recorded};

pub fn describe(body: &[u8]) -> String {
    match layout::decode(body) {
        Some((event, output)) => format!("{}{}", event_text(&event), frames_text(output)),
        None => format!("no layout, {} bytes", body.len()),
    }
}

fn event_text(event: &Recorded) -> String {
    let float = f32::from_bits;
    match event {
        Recorded::Open { connection } => format!("connection {connection} opened"),
        Recorded::Deliver { connection, shown } => {
            let (label, bytes) = (words::label(shown), shown.len());
            format!("connection {connection} {label}, {bytes} bytes shown")
        }
        Recorded::Cut { connection } => format!("connection {connection} cut"),
        Recorded::Clock { milliseconds } => format!("clock {milliseconds} ms"),
        Recorded::Answer {
            session,
            end,
            payload,
            ..
        } => {
            let end = if *end { "" } else { ", more to come" };
            format!("session {session} answer {}{end}", words::text(payload))
        }
        Recorded::Status { status } => format!("status byte {status:02x}"),
        Recorded::WatchOff { session } => format!("session {session} watch off"),
        Recorded::WatchAbove { session, limit } => {
            format!("session {session} watch above {}", float(*limit))
        }
        Recorded::WatchOutside { session, low, high } => {
            let (low, high) = (float(*low), float(*high));
            format!("session {session} watch outside {low} to {high}")
        }
        Recorded::Patterns { text } => {
            let patterns: Vec<_> = lines(text).into_iter().map(words::text).collect();
            format!("{} patterns {}", patterns.len(), patterns.join(" "))
        }
    }
}

fn frames_text(output: &[u8]) -> String {
    match frames(output) {
        Some(sent) => sent
            .iter()
            .map(|frame| {
                let name = names::of_type(frame.kind);
                format!("; {name} {} to connection {}", frame.code, frame.connection)
            })
            .collect(),
        None => format!("; {} bytes that are no frames", output.len()),
    }
}
