//! Who holds what, since when.

use crate::numbers::SessionId;
use crate::sys;

/// A session that holds a lock, as [`crate::Server::holders`] tells it.
#[derive(Clone, Copy, Debug, PartialEq, Eq, Hash)]
pub struct Holder {
    /// Who holds it.
    pub session: SessionId,
    /// It holds the exclusive lock.
    pub exclusive: bool,
    /// It holds a shared lock; perhaps beside the exclusive one.
    pub shared: bool,
    /// What the clock read when a lock was granted to it last, in milliseconds.
    pub granted_at: u64,
    /// How many locks were granted to it since it opened; once at 2^62 it stays there.
    pub grants: u64,
}

impl Holder {
    /// From the numbers of the C interface. Panics at a SessionID of more than 16 bits, as `Server`
    /// documents.
    pub(crate) fn of(row: &sys::hislip_row) -> Holder {
        let session = u16::try_from(row.session).expect("SessionIDs have 16 bits");
        Holder {
            session: session.into(),
            exclusive: row.exclusive != 0,
            shared: row.shared != 0,
            granted_at: row.granted_at,
            grants: row.grants,
        }
    }
}
