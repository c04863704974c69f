//! After a closing the strings of its session are nowhere in what the server holds.

use reference::lock_model::LockModel;
use reference::{Event, Reply};

use crate::watch::Complaint;

/// A shorter string may stand in the memory by chance.
const TELLING: usize = 8;

/// The strings of the session that an event closes; `model` is as it was before the event.
pub fn strings_gone(model: &LockModel, event: &Event, reply: &Reply) -> Vec<Vec<u8>> {
    let closed = match event {
        Event::Cut { connection, .. } if reply.refusal == 0 => *connection,
        Event::Deliver { connection, .. } if reply.outcome == Reply::CLOSED => *connection,
        _ => return Vec::new(),
    };
    let gone = model.session_of(closed);
    let strings = model.strings();
    let own = strings.filter(|(session, string)| Some(*session) == gone && string.len() >= TELLING);
    own.map(|(_, string)| string.to_vec()).collect()
}

/// Looks for them in the memory, but for those that the string of another session nearly has; `model` is as
/// it is after the event. Returns how many were looked for.
pub fn look(model: &LockModel, gone: &[Vec<u8>], memory: &[u8]) -> Result<usize, Complaint> {
    let stays = |own: &&Vec<u8>| model.strings().any(|(_, other)| nearly_in(own, other));
    let sought = || gone.iter().filter(|own| !stays(own));
    match sought().find(|own| occurs(own, memory)) {
        Some(own) => Err(format!(
            "the string \"{}\" of a session that is closed is still there",
            own.escape_ascii()
        )),
        None => Ok(sought().count()),
    }
}

/// All but its first or its last byte: the byte that is beside the other string may be the missing one by
/// chance, as the low byte of a deadline.
fn nearly_in(string: &[u8], other: &[u8]) -> bool {
    occurs(&string[1..], other) || occurs(&string[..string.len() - 1], other)
}

fn occurs(string: &[u8], memory: &[u8]) -> bool {
    memory.windows(string.len()).any(|part| part == string)
}

#[cfg(test)]
mod tests {
    use super::nearly_in;

    #[test]
    fn a_string_is_told_from_one_that_lacks_two_of_its_bytes() {
        assert!(nearly_in(b"kkkkkkkK", b"kkkkkkkk"));
        assert!(nearly_in(b"Kkkkkkkk", b"xkkkkkkk"));
        assert!(nearly_in(b"kkkkkkkk", b"kkkkkkkk"));
        assert!(!nearly_in(b"kkkkkkkK", b"kkkkkk"));
        assert!(!nearly_in(b"KkkkkkkK", b"kkkkkkxx"));
    }
}
