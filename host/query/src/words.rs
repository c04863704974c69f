//! Messages in words, for logs and journals.

use crate::names;

/// Bytes of a payload that a line shows.
const SHOWN: usize = 200;

/// Text with every byte visible; a long one is cut and its length told.
pub fn text(bytes: &[u8]) -> String {
    match bytes.get(..SHOWN) {
        Some(first) if bytes.len() > SHOWN => {
            format!("\"{}\".. ({} bytes)", first.escape_ascii(), bytes.len())
        }
        _ => format!("\"{}\"", bytes.escape_ascii()),
    }
}

/// What the first bytes of a delivery are: the message's type, with its MessageID if it has one.
pub fn label(head: &[u8]) -> String {
    let [b'H', b'S', kind, _, number @ ..] = head else {
        return "no HiSLIP header".into();
    };
    let name = names::of_type(*kind);
    match (*kind, number.first_chunk()) {
        (names::DATA | names::DATA_END | names::TRIGGER, Some(number)) => {
            format!("{name} {:08x}", u32::from_be_bytes(*number))
        }
        _ => name,
    }
}

/// A message that the server acted on, and its direct reply.
pub fn acted_on(kind: u8, code: u8, parameter: u32, payload: &[u8], reply: Option<u8>) -> String {
    let name = names::of_type(kind);
    match kind {
        names::DATA | names::DATA_END => format!("{name} {parameter:08x} {}", text(payload)),
        names::TRIGGER => format!("{name} {parameter:08x}"),
        names::ASYNC_LOCK if code == 0 => {
            let what = reply.map_or("stands".into(), |code| format!("answered {code}"));
            format!("{name} release after {parameter:08x}, {what}")
        }
        names::ASYNC_LOCK => {
            let lock = match payload.is_empty() {
                true => "exclusive".into(),
                false => format!("shared {}", text(payload)),
            };
            format!("{name} {lock}, {parameter} ms{}", answered(reply))
        }
        names::ASYNC_STATUS_QUERY => format!("{name} {parameter:08x}{}", answered(reply)),
        names::ASYNC_REMOTE_LOCAL_CONTROL => format!("{name} {code}"),
        names::ASYNC_MAXIMUM_MESSAGE_SIZE => match <[u8; 8]>::try_from(payload) {
            Ok(size) => format!("{name} {}", u64::from_be_bytes(size)),
            Err(_) => name,
        },
        names::INITIALIZE => format!("{name} {}", text(payload)),
        _ => name,
    }
}

fn answered(reply: Option<u8>) -> String {
    match reply {
        Some(code) => format!(", answered {code}"),
        None => ", waits".into(),
    }
}

/// An Error or FatalError that was sent; None for any other type.
pub fn told(kind: u8, code: u8) -> Option<String> {
    let meaning = match kind {
        names::ERROR => names::of_error(code),
        names::FATAL_ERROR => names::of_fatal_error(code),
        _ => return None,
    };
    Some(format!("{} {code} sent: {meaning}", names::of_type(kind)))
}
