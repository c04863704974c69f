//! Who holds what, since when: the rows of the front panel.

use crate::event::Row;
use crate::limits::GRANTS;
use crate::reply::Refusal;
use crate::server::{Server, Session};

impl Session {
    /// A lock is granted to it at this reading of the clock, and its answer is sent.
    pub(crate) fn granted(&mut self, clock: u64) {
        self.granted_at = clock;
        self.grants = GRANTS.min(self.grants + 1);
    }
}

impl Server {
    /// One row for each session that holds a lock, by ascending SessionID, into the front of the list;
    /// returns how many. Further rows stay as they are, and so does all of a list that is too short.
    pub fn holders(&self, rows: &mut [Row]) -> Result<usize, Refusal> {
        let mut held: Vec<Row> = self.rows().collect();
        held.sort_by_key(|row| row.session);
        if held.len() > rows.len() {
            return Err(Refusal::ListTooShort);
        }
        rows[..held.len()].copy_from_slice(&held);
        Ok(held.len())
    }

    /// The rows, by slot.
    fn rows(&self) -> impl Iterator<Item = Row> + '_ {
        (0..).zip(&self.sessions).filter_map(|(slot, session)| {
            let session = session.as_ref()?;
            let exclusive = self.locks.exclusive_holder() == Some(slot);
            let shared = self.locks.shared_string(slot).is_some();
            (exclusive || shared).then_some(Row {
                session: session.number.into(),
                exclusive: exclusive.into(),
                shared: shared.into(),
                granted_at: session.granted_at,
                grants: session.grants,
            })
        })
    }
}
