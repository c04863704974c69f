//! The list of a seed as text, with a server's answers: what `timeline` draws.

use timeline::list::{line, Entry};

use crate::hostile;
use crate::watch::{Complaint, Side, Watch};

/// The events of a seed with one server's answers and frames.
pub fn entries(side: &Side, seed: u64) -> Result<Vec<Entry>, Complaint> {
    let (fresh, list) = hostile::list(side, seed);
    let mut watch = Watch::new(side, fresh);
    let mut entries = Vec::with_capacity(list.len());
    for event in list {
        let reply = watch.event(&event)?;
        let (_, output) = watch.log.last();
        entries.push(Entry {
            reply,
            output: output.to_vec(),
            event,
        });
    }
    Ok(entries)
}

/// The same as text, a line for each.
pub fn text(side: &Side, seed: u64) -> Result<String, Complaint> {
    let lines = entries(side, seed)?.iter().map(line).collect::<Vec<_>>();
    Ok(format!("# seed {seed}\n{}\n", lines.join("\n")))
}

#[cfg(test)]
mod tests {
    use super::{entries, text};
    use crate::command::LIBRARY;
    use reference::compose::ROOM;
    use reference::Event;
    use timeline::list::{read, Entry};

    /// The length of the buffer is not told.
    fn with_usual_room(mut entry: Entry) -> Entry {
        match &mut entry.event {
            Event::Deliver { room, .. } | Event::Cut { room, .. } | Event::Clock { room, .. } => {
                *room = ROOM
            }
            Event::Answer { room, end, .. } => {
                *room = ROOM;
                *end = (*end).min(1);
            }
            Event::Open { .. }
            | Event::Status { .. }
            | Event::Watch { .. }
            | Event::Patterns { .. } => {}
        }
        entry
    }

    #[test]
    fn what_is_written_is_read_again() {
        for seed in 1..20 {
            let entries = entries(&LIBRARY, seed).expect("no complaint");
            let read = read(&text(&LIBRARY, seed).expect("no complaint")).expect("well formed");
            let expected: Vec<Entry> = entries.into_iter().map(with_usual_room).collect();
            assert!(read == expected, "seed {seed}");
            assert!(timeline::draw(&read).ends_with("</svg>\n"));
        }
    }
}
