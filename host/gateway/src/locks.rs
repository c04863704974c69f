//! Locks, for the log alone. Who holds which, and since when, is the server's own word
//! ([`hislip::Server::holders`]); what it does not tell is followed from messages that acted and lock answers
//! sent: the string of a shared lock, who waits and whose release stands.

use std::collections::BTreeMap;

use hislip::Holder;

use crate::session::SessionId;

const GRANTED: u8 = 1;

#[derive(Default)]
struct Locks {
    /// The string of its last shared lock.
    string: Vec<u8>,
    /// For this string.
    waits: Option<Vec<u8>>,
    stands: Option<Stands>,
}

/// A release that waits for the message it names.
struct Stands {
    number: u32,
    /// What it waited for has come: the session's next answer but 0 is the release's.
    due: bool,
}

/// What a lock answer that comes later is about.
#[derive(Clone, Copy, Debug, PartialEq, Eq)]
pub enum Later {
    Request,
    Release,
}

#[derive(Default)]
pub struct Followed(BTreeMap<SessionId, Locks>);

impl Followed {
    /// A request for a string was answered, or waits.
    pub fn requested(&mut self, session: SessionId, string: &[u8], answer: Option<u8>) {
        let locks = self.0.entry(session).or_default();
        let string = string.to_vec();
        match answer {
            Some(GRANTED) => locks.grant(string),
            Some(_) => {}
            None => locks.waits = Some(string),
        }
    }

    /// A release that names a message was answered, or stands.
    pub fn released(&mut self, session: SessionId, number: u32, answer: Option<u8>) {
        let locks = self.0.entry(session).or_default();
        if answer.is_none() {
            locks.stands = Some(Stands { number, due: false });
        }
    }

    /// A Data, DataEND or Trigger of this number acted; without a number, a device clear.
    pub fn came(&mut self, session: SessionId, number: Option<u32>) {
        let locks = self.0.get_mut(&session);
        if let Some(stands) = locks.and_then(|locks| locks.stands.as_mut()) {
            stands.due = number.is_none_or(|number| number == stands.number);
        }
    }

    /// A waiting request or a standing release was answered.
    pub fn answered(&mut self, session: SessionId, code: u8) -> Later {
        let locks = self.0.entry(session).or_default();
        if locks
            .stands
            .take_if(|stands| stands.due && code > 0)
            .is_some()
        {
            return Later::Release;
        }
        if let (Some(string), GRANTED) = (locks.waits.take(), code) {
            locks.grant(string);
        }
        Later::Request
    }

    pub fn gone(&mut self, session: SessionId) {
        self.0.remove(&session);
    }

    /// `no locks`, or who holds which, who waits and whose release stands; behind them of each holder how many
    /// locks it was granted, and when the last one. `time` shows a reading of the clock.
    pub fn describe(&self, holders: &[Holder], time: impl Fn(u64) -> String) -> String {
        let mut parts = self.parts(holders);
        for holder in holders {
            let record = format!("lock {} at {}", holder.grants, time(holder.granted_at));
            parts.push((holder.session, record));
        }
        let parts = parts
            .iter()
            .map(|(session, what)| format!("{session} {what}"));
        match parts.collect::<Vec<_>>() {
            none if none.is_empty() => "no locks".into(),
            parts => format!("locks: {}", parts.join(", ")),
        }
    }

    /// What is said of each session, in their order.
    fn parts(&self, holders: &[Holder]) -> Vec<(SessionId, String)> {
        let mut parts = Vec::new();
        for holder in holders {
            if holder.exclusive {
                parts.push((holder.session, "exclusive".into()));
            }
            if holder.shared {
                let string = self.string(holder.session).escape_ascii();
                parts.push((holder.session, format!("shared \"{string}\"")));
            }
        }
        for (session, locks) in &self.0 {
            if locks.waits.is_some() {
                parts.push((*session, "waits".into()));
            }
            if let Some(stands) = &locks.stands {
                let number = stands.number;
                parts.push((*session, format!("release stands for {number:08x}")));
            }
        }
        parts.sort_by_key(|(session, _)| *session);
        parts
    }

    fn string(&self, session: SessionId) -> &[u8] {
        let locks = self.0.get(&session);
        locks.map_or(&[], |locks| &locks.string)
    }
}

impl Locks {
    fn grant(&mut self, string: Vec<u8>) {
        if !string.is_empty() {
            self.string = string;
        }
    }
}
