//! Who holds what, since when: rows into a list that is lent.

use reference::{Counted, Refusal, Row};

use crate::server::Server;

impl Server {
    /// One row for each session that holds a lock, by ascending SessionID. A list that is too short stays as
    /// it is.
    pub fn holders(&self, rows: &mut [Row]) -> Counted {
        let count = self.locks.holders();
        let Some(rows) = rows.get_mut(..count as usize) else {
            return Counted {
                refusal: Refusal::ListTooShort as u64,
                rows: 0,
            };
        };
        for (row, slot) in rows.iter_mut().zip(self.locks.holding()) {
            *row = self.row(slot);
        }
        rows.sort_unstable_by_key(|row| row.session);
        Counted {
            refusal: 0,
            rows: count.into(),
        }
    }

    fn row(&self, slot: u8) -> Row {
        let session = &self.sessions[usize::from(slot)];
        Row {
            session: session.number.into(),
            exclusive: self.locks.has_exclusive(slot).into(),
            shared: self.locks.shared_by(slot).is_some().into(),
            granted_at: session.granted_at,
            grants: session.grants,
        }
    }
}
