//! The types of messages.

use std::fmt;

use MessageType::*;

/// The first of the vendors' type numbers.
const VENDOR: u8 = 128;

/// A message's type (IVI-6.1, Table 4), the byte after "HS".
#[derive(Clone, Copy, Debug, PartialEq, Eq, Hash)]
#[repr(u8)]
pub enum MessageType {
    /// A client opens a session on its synchronous channel.
    Initialize = 0,
    /// The reply, with the SessionID.
    InitializeResponse = 1,
    /// The connection is closed.
    FatalError = 2,
    /// A message was not acted on.
    Error = 3,
    /// A lock is asked for or released.
    AsyncLock = 4,
    /// The reply, at once or after a wait.
    AsyncLockResponse = 5,
    /// Part of a command or of an answer.
    Data = 6,
    /// Its last part.
    DataEnd = 7,
    /// The client ends a device clear.
    DeviceClearComplete = 8,
    /// The reply.
    DeviceClearAcknowledge = 9,
    /// Remote or local.
    AsyncRemoteLocalControl = 10,
    /// The reply.
    AsyncRemoteLocalResponse = 11,
    /// The instrument is triggered.
    Trigger = 12,
    /// An answer was interrupted, synchronous channel.
    Interrupted = 13,
    /// An answer was interrupted, asynchronous channel.
    AsyncInterrupted = 14,
    /// The client tells the largest payload that it takes.
    AsyncMaximumMessageSize = 15,
    /// The reply, with the server's.
    AsyncMaximumMessageSizeResponse = 16,
    /// A client brings the asynchronous channel of its session.
    AsyncInitialize = 17,
    /// The reply, with the vendor number.
    AsyncInitializeResponse = 18,
    /// A device clear begins.
    AsyncDeviceClear = 19,
    /// The instrument wants service.
    AsyncServiceRequest = 20,
    /// The status byte is asked for.
    AsyncStatusQuery = 21,
    /// The reply.
    AsyncStatusResponse = 22,
    /// The reply to a device clear's beginning.
    AsyncDeviceClearAcknowledge = 23,
    /// Who holds locks is asked for.
    AsyncLockInfo = 24,
    /// The reply.
    AsyncLockInfoResponse = 25,
}

/// The types by number, with their names.
const NAMED: [(MessageType, &str); 26] = [
    (Initialize, "Initialize"),
    (InitializeResponse, "InitializeResponse"),
    (FatalError, "FatalError"),
    (Error, "Error"),
    (AsyncLock, "AsyncLock"),
    (AsyncLockResponse, "AsyncLockResponse"),
    (Data, "Data"),
    (DataEnd, "DataEND"),
    (DeviceClearComplete, "DeviceClearComplete"),
    (DeviceClearAcknowledge, "DeviceClearAcknowledge"),
    (AsyncRemoteLocalControl, "AsyncRemoteLocalControl"),
    (AsyncRemoteLocalResponse, "AsyncRemoteLocalResponse"),
    (Trigger, "Trigger"),
    (Interrupted, "Interrupted"),
    (AsyncInterrupted, "AsyncInterrupted"),
    (AsyncMaximumMessageSize, "AsyncMaximumMessageSize"),
    (
        AsyncMaximumMessageSizeResponse,
        "AsyncMaximumMessageSizeResponse",
    ),
    (AsyncInitialize, "AsyncInitialize"),
    (AsyncInitializeResponse, "AsyncInitializeResponse"),
    (AsyncDeviceClear, "AsyncDeviceClear"),
    (AsyncServiceRequest, "AsyncServiceRequest"),
    (AsyncStatusQuery, "AsyncStatusQuery"),
    (AsyncStatusResponse, "AsyncStatusResponse"),
    (AsyncDeviceClearAcknowledge, "AsyncDeviceClearAcknowledge"),
    (AsyncLockInfo, "AsyncLockInfo"),
    (AsyncLockInfoResponse, "AsyncLockInfoResponse"),
];

impl MessageType {
    /// The type of this number; none for a vendor's, 128 and above, and for one that the standard
    /// does not have.
    pub fn from_number(number: u8) -> Option<MessageType> {
        NAMED.get(usize::from(number)).map(|(kind, _)| *kind)
    }

    /// The byte in a message.
    pub fn number(self) -> u8 {
        self as u8
    }

    /// The name in the standard.
    pub fn name(self) -> &'static str {
        NAMED[usize::from(self.number())].1
    }
}

impl fmt::Display for MessageType {
    fn fmt(&self, f: &mut fmt::Formatter<'_>) -> fmt::Result {
        f.pad(self.name())
    }
}

/// Any type byte in words, for logs: the name, or why it has none.
pub fn type_name(number: u8) -> &'static str {
    match MessageType::from_number(number) {
        Some(kind) => kind.name(),
        None if number >= VENDOR => "a vendor's message",
        None => "unrecognised",
    }
}

#[cfg(test)]
mod tests {
    use super::{type_name, MessageType, NAMED};

    #[test]
    fn the_table_is_in_the_order_of_the_numbers() {
        for (number, (kind, name)) in (0..).zip(NAMED) {
            assert_eq!(kind.number(), number);
            assert_eq!(MessageType::from_number(number), Some(kind));
            assert_eq!((kind.to_string().as_str(), type_name(number)), (name, name));
        }
    }

    #[test]
    fn the_other_numbers_have_no_type() {
        let first = NAMED.len() as u8;
        assert!((first..=u8::MAX).all(|number| MessageType::from_number(number).is_none()));
        assert_eq!(type_name(first), "unrecognised");
        assert_eq!(
            (type_name(127), type_name(128)),
            ("unrecognised", "a vendor's message")
        );
    }
}
