//! What demand 3 compares: clock, connections, holders with their strings, who waits, and the releases
//! that stand.

#[derive(Clone, Debug, PartialEq, Eq)]
pub struct LockView {
    pub clock: u64,
    /// By ascending SessionID.
    pub sessions: Vec<SessionView>,
    /// By arrival.
    pub waiting: Vec<WaitingView>,
}

#[derive(Clone, Debug, PartialEq, Eq)]
pub struct SessionView {
    pub session: u16,
    pub synchronous: u8,
    pub asynchronous: Option<u8>,
    pub exclusive: bool,
    pub shared: Option<Vec<u8>>,
    /// MessageID of the last Data, DataEND or Trigger that acted since opening or AsyncDeviceClear.
    pub last: Option<u32>,
    pub standing: Option<StandingView>,
}

/// A release that waits for the message it names.
#[derive(Clone, Debug, PartialEq, Eq)]
pub struct StandingView {
    pub number: u32,
    /// 1 frees the exclusive lock, 2 the shared one.
    pub answer: u8,
}

#[derive(Clone, Debug, PartialEq, Eq)]
pub struct WaitingView {
    pub session: u16,
    pub string: Vec<u8>,
    pub deadline: u64,
}

impl LockView {
    /// Locks held, an exclusive and a shared one each counted.
    pub fn held(&self) -> u64 {
        let held =
            |entry: &SessionView| u64::from(entry.exclusive) + u64::from(entry.shared.is_some());
        self.sessions.iter().map(held).sum()
    }
}
