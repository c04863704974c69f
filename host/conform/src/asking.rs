//! What a host may ask, after every event: two servers answer alike, and nothing is changed by it.

use reference::lock_model::LockModel;
use reference::Subject;

use crate::watch::Complaint;

/// The first number that has more than 16 bits, as no SessionID has.
const PAST: u32 = 1 << 16;

/// The sessions to ask about.
#[derive(Clone, Default)]
pub struct Roll {
    live: Vec<u32>,
    asked: Vec<u32>,
}

impl Roll {
    /// After an event: the sessions that live, by the lock model, those that lived before it, and
    /// numbers of none: 0, the one after the highest, and that one past 16 bits.
    pub fn after(&mut self, model: &LockModel) {
        self.asked.clone_from(&self.live);
        self.live.clear();
        self.live.extend(model.sessions().map(u32::from));
        self.asked.extend_from_slice(&self.live);
        let highest = self.live.last().copied().unwrap_or(0);
        self.asked.extend([0, highest + 1, PAST + highest]);
        self.asked.sort_unstable();
        self.asked.dedup();
    }

    /// Asks both. An error says what they were asked, and what each says.
    pub fn ask(&self, left: &dyn Subject, right: &dyn Subject) -> Result<(), [Complaint; 3]> {
        let (first, second) = (left.deadline(), right.deadline());
        if first != second {
            let [first, second] = [first, second].map(|told| format!("{told:?}"));
            return Err(["who waits".into(), first, second]);
        }
        for session in &self.asked {
            let (first, second) = (left.client_size(*session), right.client_size(*session));
            if first != second {
                let [first, second] = [first, second].map(|told| format!("{told:?}"));
                return Err([format!("session {session}'s size"), first, second]);
            }
            let (first, second) = (left.readings(*session), right.readings(*session));
            if first != second {
                let [first, second] = [first, second].map(|told| format!("{told:?}"));
                return Err([format!("session {session}'s readings"), first, second]);
            }
        }
        Ok(())
    }
}
