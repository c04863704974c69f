//! Lists as text, one event a line: the event, `->`, its answer, and behind `|` the frames sent.
//!
//! ```text
//! # vendor AA
//! open 0                                            -> done
//! deliver 0 48530000010041410000000000000000        -> acted on, session 1, taken 16 | 0048530100..
//! deliver 0 4853                                    -> more needed
//! clock 1000                                        -> done
//! answer 1 312e30 end                               -> done | 0048530700..
//! answer 1 312e30 end 48530700..                    -> withheld | 0148530e00..
//! answer 1 - more                                   -> refused 5
//! cut 0                                             -> done
//! status 41                                         -> done
//! watch 1 off                                       -> done
//! watch 1 above 3f800000                            -> done
//! watch 1 outside 3f800000 40000000                 -> refused 8
//! patterns 2a49444e3f0a4d454153757265               -> done
//! patterns 2a49444e3f0a4d654153                     -> refused 11, pattern 1, place 2
//! ```
//!
//! Connections, sessions, milliseconds, counts and refusals are decimal; bytes and the status byte
//! are hexadecimal, `-` for no bytes. An outcome has its session and its bytes taken behind it where
//! they are not 0. Spaces more or less do not matter; an empty line and one that begins with `#` are
//! passed over. Behind `end` stand the session's unread bytes, if there are any. The length of the output
//! buffer is not told.

use reference::compose::ROOM;
use reference::{Event, Refusal, Reply, Single, Watch};

use crate::words::{bytes, hex, number, Reader};

/// One event with its answer and the frames that it sent.
#[derive(Clone, Debug, PartialEq, Eq)]
pub struct Entry {
    /// What the host told.
    pub event: Event,
    /// What the server answered.
    pub reply: Reply,
    /// The output, a row of frames.
    pub output: Vec<u8>,
}

/// Without END.
const MORE: &str = "more";
/// With END.
const END: &str = "end";
/// The refusal that names a pattern and a place in it.
const BAD_PATTERN: u64 = Refusal::BadPattern as u64;
/// The cases of a watch.
const OFF: &str = "off";
const ABOVE: &str = "above";
const OUTSIDE: &str = "outside";
/// The answer was not sent.
const WITHHELD: &str = "withheld";

fn event_text(event: &Event) -> String {
    match event {
        Event::Open { connection } => format!("open {connection}"),
        Event::Deliver {
            connection, bytes, ..
        } => format!("deliver {connection} {}", hex(bytes)),
        Event::Cut { connection, .. } => format!("cut {connection}"),
        Event::Clock { milliseconds, .. } => format!("clock {milliseconds}"),
        Event::Answer {
            session,
            payload,
            end,
            shown,
            ..
        } => {
            let end = if *end == 0 { MORE } else { END };
            let text = format!("answer {session} {} {end}", hex(payload));
            match &shown[..] {
                [] => text,
                shown => format!("{text} {}", hex(shown)),
            }
        }
        Event::Status { status } => format!("status {status:02x}"),
        Event::Watch { session, watch } => format!("watch {session} {}", limits(*watch)),
        Event::Patterns { text } => format!("patterns {}", hex(text)),
    }
}

/// A watch with the bits of its limits.
fn limits(watch: Watch) -> String {
    match watch {
        Watch::Off => OFF.into(),
        Watch::Above { limit } => format!("{ABOVE} {:08x}", limit.bits()),
        Watch::Outside { low, high } => format!("{OUTSIDE} {:08x} {:08x}", low.bits(), high.bits()),
    }
}

fn reply_text(event: &Event, reply: &Reply) -> String {
    if reply.refusal == BAD_PATTERN {
        let (pattern, place) = (reply.pattern, reply.place);
        return format!("refused {BAD_PATTERN}, pattern {pattern}, place {place}");
    }
    if reply.refusal != 0 {
        return format!("refused {}", reply.refusal);
    }
    if reply.withheld != 0 {
        return WITHHELD.into();
    }
    if !matches!(event, Event::Deliver { .. }) {
        return "done".into();
    }
    let mut text = Reply::OUTCOMES[reply.outcome as usize].to_owned();
    if reply.session != 0 {
        text += &format!(", session {}", reply.session);
    }
    if reply.taken != 0 {
        text += &format!(", taken {}", reply.taken);
    }
    if reply.missing != 0 {
        text += &format!(", missing {}", reply.missing);
    }
    text
}

/// An entry as a line.
pub fn line(entry: &Entry) -> String {
    let event = event_text(&entry.event);
    let reply = reply_text(&entry.event, &entry.reply);
    match &entry.output[..] {
        [] => format!("{event} -> {reply}"),
        output => format!("{event} -> {reply} | {}", hex(output)),
    }
}

fn event(text: &str) -> Result<Event, String> {
    let mut words = Reader::new(text);
    let event = match words.next("an event")? {
        "open" => Event::Open {
            connection: number(words.next("a connection")?)?,
        },
        "deliver" => Event::Deliver {
            connection: number(words.next("a connection")?)?,
            bytes: bytes(words.next("bytes")?)?,
            room: ROOM,
        },
        "cut" => Event::Cut {
            connection: number(words.next("a connection")?)?,
            room: ROOM,
        },
        "clock" => Event::Clock {
            milliseconds: number(words.next("milliseconds")?)?,
            room: ROOM,
        },
        "answer" => Event::Answer {
            session: number(words.next("a session")?)?,
            payload: bytes(words.next("bytes")?)?,
            end: end(words.next("`end` or `more`")?)?,
            shown: words.next("unread bytes").map_or(Ok(vec![]), bytes)?,
            room: ROOM,
        },
        "status" => Event::Status {
            status: status(words.next("a status byte")?)?,
        },
        other => setting(other, &mut words)?,
    };
    words.end()?;
    Ok(event)
}

/// A watch or a list of patterns.
fn setting(word: &str, words: &mut Reader) -> Result<Event, String> {
    match word {
        "watch" => Ok(Event::Watch {
            session: number(words.next("a session")?)?,
            watch: watch(words)?,
        }),
        "patterns" => Ok(Event::Patterns {
            text: bytes(words.next("bytes")?)?,
        }),
        other => Err(format!("no event `{other}`")),
    }
}

fn watch(words: &mut Reader) -> Result<Watch, String> {
    match words.next("a watch")? {
        OFF => Ok(Watch::Off),
        ABOVE => Ok(Watch::Above {
            limit: limit(words)?,
        }),
        OUTSIDE => Ok(Watch::Outside {
            low: limit(words)?,
            high: limit(words)?,
        }),
        other => Err(format!("no watch `{other}`")),
    }
}

/// The bits of an IEEE 754 single.
fn limit(words: &mut Reader) -> Result<Single, String> {
    let word = words.next("a limit")?;
    match <[u8; 4]>::try_from(&bytes(word)?[..]) {
        Ok(four) => Ok(Single::of_bits(u32::from_be_bytes(four))),
        Err(_) => Err(format!("`{word}` is not four bytes")),
    }
}

fn end(word: &str) -> Result<u8, String> {
    match word {
        END => Ok(1),
        MORE => Ok(0),
        _ => Err(format!("`{word}` is neither `{END}` nor `{MORE}`")),
    }
}

fn status(word: &str) -> Result<u8, String> {
    match bytes(word)?[..] {
        [status] => Ok(status),
        _ => Err(format!("`{word}` is not one byte")),
    }
}

fn reply(text: &str) -> Result<Reply, String> {
    let mut parts = text.split(',').map(str::trim);
    let first = parts.next().unwrap_or("");
    let mut reply = match first.strip_prefix("refused ") {
        Some(refusal) => Reply::refused(number(refusal)?),
        None if first == "done" => Reply::done(0),
        None if first == WITHHELD => Reply {
            withheld: 1,
            ..Reply::default()
        },
        None => {
            let outcome = Reply::OUTCOMES.iter().position(|name| *name == first);
            Reply {
                outcome: outcome.ok_or(format!("no outcome `{first}`"))? as u64,
                ..Reply::default()
            }
        }
    };
    for part in parts {
        match part.split_once(' ') {
            Some(("session", session)) => reply.session = number(session)?,
            Some(("taken", taken)) => reply.taken = number(taken)?,
            Some(("missing", missing)) => reply.missing = number(missing)?,
            Some(("pattern", pattern)) => reply.pattern = number(pattern)?,
            Some(("place", place)) => reply.place = number(place)?,
            _ => return Err(format!("`{part}` is no part of an answer")),
        }
    }
    Ok(reply)
}

fn entry(line: &str) -> Result<Entry, String> {
    let (told, answer) = line.split_once("->").ok_or("no answer behind `->`")?;
    let (answer, output) = match answer.split_once('|') {
        Some((answer, output)) => (answer, bytes(output.trim())?),
        None => (answer, Vec::new()),
    };
    let mut reply = reply(answer)?;
    reply.output = output.len() as u64;
    Ok(Entry {
        event: event(told)?,
        reply,
        output,
    })
}

/// Every entry of a text; the error names the line.
pub fn read(text: &str) -> Result<Vec<Entry>, String> {
    let told = |line: &&str| !line.trim().is_empty() && !line.trim().starts_with('#');
    let lines = text.lines().enumerate();
    let lines = lines.filter(|(_, line)| told(line));
    let read = |(place, line)| entry(line).map_err(|what| format!("line {}: {what}", place + 1));
    lines.map(read).collect()
}

#[cfg(test)]
mod tests {
    use super::{line, read};

    const TEXT: &str = "\
open 0 -> done
deliver 0 48530000010041410000000000000000 -> acted on, session 1, taken 16 | 00485301000100000100
deliver 0 - -> more needed
deliver 0 0102 -> closed, session 1
clock 1000 -> done
answer 1 312e30 end -> done | 0048
answer 1 312e30 end 4853 -> withheld | 0148
answer 1 - more -> refused 5
cut 31 -> done
status 41 -> done
watch 1 off -> done
watch 1 above 7fc00001 -> refused 10
watch 65536 outside bf800000 00000000 -> done
patterns - -> done
patterns 2a49444e3f0a -> done
patterns 0a -> refused 11, pattern 0, place 0
patterns 41 -> refused 12
";

    #[test]
    fn what_is_read_is_written_again() {
        let entries = read(TEXT).expect("all of it");
        let lines: Vec<String> = entries.iter().map(line).collect();
        assert_eq!(lines.join("\n") + "\n", TEXT);
    }

    #[test]
    fn comments_and_spaces_do_not_matter() {
        let entries = read("# vendor AA\n\n  open   3   ->   done  \n").expect("one event");
        assert_eq!(line(&entries[0]), "open 3 -> done");
    }

    #[test]
    fn what_is_wrong_is_named_with_its_line() {
        let told = |text: &str| read(text).expect_err("wrong");
        assert_eq!(
            told("open 0 -> done\nopen 1"),
            "line 2: no answer behind `->`"
        );
        assert_eq!(told("close 0 -> done"), "line 1: no event `close`");
        assert_eq!(told("open -> done"), "line 1: a connection is missing");
        assert_eq!(told("open x -> done"), "line 1: `x` is no number");
        assert_eq!(told("open 1 2 -> done"), "line 1: `2` is too much");
        assert_eq!(
            told("deliver 0 4 -> held"),
            "line 1: `4` is no row of bytes"
        );
        assert_eq!(told("deliver 0 - -> kept"), "line 1: no outcome `kept`");
        assert_eq!(
            told("answer 1 - yes -> done"),
            "line 1: `yes` is neither `end` nor `more`"
        );
        assert_eq!(told("watch 1 on -> done"), "line 1: no watch `on`");
        assert_eq!(
            told("watch 1 above 00 -> done"),
            "line 1: `00` is not four bytes"
        );
    }
}
