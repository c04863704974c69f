//! IVI-6.1's numbers by name: message types (Table 4), FatalErrors (Table 14), Errors (Table 16).

pub const INITIALIZE: u8 = 0;
pub const INITIALIZE_RESPONSE: u8 = 1;
pub const FATAL_ERROR: u8 = 2;
pub const ERROR: u8 = 3;
pub const ASYNC_LOCK: u8 = 4;
pub const ASYNC_LOCK_RESPONSE: u8 = 5;
pub const DATA: u8 = 6;
pub const DATA_END: u8 = 7;
pub const DEVICE_CLEAR_COMPLETE: u8 = 8;
pub const DEVICE_CLEAR_ACKNOWLEDGE: u8 = 9;
pub const ASYNC_REMOTE_LOCAL_CONTROL: u8 = 10;
pub const ASYNC_REMOTE_LOCAL_RESPONSE: u8 = 11;
pub const TRIGGER: u8 = 12;
pub const INTERRUPTED: u8 = 13;
pub const ASYNC_INTERRUPTED: u8 = 14;
pub const ASYNC_MAXIMUM_MESSAGE_SIZE: u8 = 15;
pub const ASYNC_MAXIMUM_MESSAGE_SIZE_RESPONSE: u8 = 16;
pub const ASYNC_INITIALIZE: u8 = 17;
pub const ASYNC_INITIALIZE_RESPONSE: u8 = 18;
pub const ASYNC_DEVICE_CLEAR: u8 = 19;
pub const ASYNC_SERVICE_REQUEST: u8 = 20;
pub const ASYNC_STATUS_QUERY: u8 = 21;
pub const ASYNC_STATUS_RESPONSE: u8 = 22;
pub const ASYNC_DEVICE_CLEAR_ACKNOWLEDGE: u8 = 23;
pub const ASYNC_LOCK_INFO: u8 = 24;
pub const ASYNC_LOCK_INFO_RESPONSE: u8 = 25;

const TYPES: [&str; 26] = [
    "Initialize",
    "InitializeResponse",
    "FatalError",
    "Error",
    "AsyncLock",
    "AsyncLockResponse",
    "Data",
    "DataEND",
    "DeviceClearComplete",
    "DeviceClearAcknowledge",
    "AsyncRemoteLocalControl",
    "AsyncRemoteLocalResponse",
    "Trigger",
    "Interrupted",
    "AsyncInterrupted",
    "AsyncMaximumMessageSize",
    "AsyncMaximumMessageSizeResponse",
    "AsyncInitialize",
    "AsyncInitializeResponse",
    "AsyncDeviceClear",
    "AsyncServiceRequest",
    "AsyncStatusQuery",
    "AsyncStatusResponse",
    "AsyncDeviceClearAcknowledge",
    "AsyncLockInfo",
    "AsyncLockInfoResponse",
];

/// The first type, Error and FatalError number that is a vendor's own.
const VENDOR: u8 = 128;

/// A message type's name; "type 39" for one without.
pub fn of_type(kind: u8) -> String {
    match TYPES.get(usize::from(kind)) {
        Some(name) => (*name).into(),
        None if kind >= VENDOR => format!("vendor type {kind}"),
        None => format!("type {kind}"),
    }
}

pub fn of_fatal_error(code: u8) -> &'static str {
    match code {
        0 => "unidentified error",
        1 => "poorly formed message header",
        2 => "attempt to use connection without both channels established",
        3 => "invalid initialization sequence",
        4 => "server refused connection, maximum number of clients exceeded",
        5 => "secure connection failed",
        VENDOR.. => "device defined error",
        _ => "reserved number",
    }
}

pub fn of_error(code: u8) -> &'static str {
    match code {
        0 => "unidentified error",
        1 => "unrecognized message type",
        2 => "unrecognized control code",
        3 => "unrecognized vendor defined message",
        4 => "message too large",
        5 => "authentication failed",
        VENDOR.. => "device defined error",
        _ => "reserved number",
    }
}
