//! The canonical history (01: the shortened list): the whole messages taken and the other events.

use crate::event::{Event, Reply};

/// 01 omits refused calls and deliveries answered more needed or held.
pub fn omitted(event: &Event, reply: &Reply) -> bool {
    let delivery = matches!(event, Event::Deliver { .. });
    let nothing_done = matches!(reply.outcome, Reply::MORE_NEEDED | Reply::HELD);
    reply.refusal != 0 || (delivery && nothing_done)
}

/// A delivery that takes bytes shows just those; any other event is kept as it is, also a delivery
/// that closed, which takes none.
pub fn trimmed(event: &Event, reply: &Reply) -> Event {
    match event {
        Event::Deliver {
            connection,
            bytes,
            room,
        } if reply.taken > 0 => {
            let taken = bytes.len().min(reply.taken as usize);
            Event::Deliver {
                connection: *connection,
                bytes: bytes[..taken].to_vec(),
                room: *room,
            }
        }
        other => other.clone(),
    }
}

/// The kept events, each with the place it had in the list.
pub fn canonical<'a>(
    list: impl IntoIterator<Item = (&'a Event, &'a Reply)>,
) -> Vec<(usize, Event)> {
    list.into_iter()
        .enumerate()
        .filter(|(_, (event, reply))| !omitted(event, reply))
        .map(|(place, (event, reply))| (place, trimmed(event, reply)))
        .collect()
}
