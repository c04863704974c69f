//! Who holds which lock and who waits, by the server's session slots.
//!
//! All shared holders have the same string, so it is kept once.

use crate::limits::{LOCK_STRING, SESSIONS};

#[derive(Clone, Copy, Debug, PartialEq, Eq, Hash)]
pub struct LockString {
    length: u16,
    bytes: [u8; LOCK_STRING],
}

impl LockString {
    pub const EMPTY: LockString = LockString {
        length: 0,
        bytes: [0; LOCK_STRING],
    };

    /// None if the string is too long.
    pub fn new(string: &[u8]) -> Option<LockString> {
        let mut bytes = [0; LOCK_STRING];
        bytes.get_mut(..string.len())?.copy_from_slice(string);
        Some(LockString {
            length: string.len() as u16,
            bytes,
        })
    }

    pub fn as_bytes(&self) -> &[u8] {
        &self.bytes[..usize::from(self.length)]
    }

    fn is_empty(&self) -> bool {
        self.length == 0
    }
}

/// The empty string asks for the exclusive lock.
#[derive(Clone, Copy, Debug, PartialEq, Eq, Hash)]
pub struct Request {
    pub slot: u8,
    pub string: LockString,
    pub deadline: u64,
}

const NO_REQUEST: Request = Request {
    slot: 0,
    string: LockString::EMPTY,
    deadline: 0,
};

/// What a release frees; the numbers are its answers.
#[derive(Clone, Copy, Debug, PartialEq, Eq, Hash)]
pub enum Released {
    Exclusive = 1,
    Shared = 2,
    Nothing = 3,
}

#[derive(Clone, Debug, PartialEq, Eq, Hash)]
pub struct Locks {
    exclusive: Option<u8>,
    /// One bit for each slot.
    shared: u32,
    key: LockString,
    /// By arrival; places from `count` on are blank.
    waiting: [Request; SESSIONS],
    count: usize,
}

fn bit(slot: u8) -> u32 {
    1 << slot
}

impl Locks {
    pub fn new() -> Locks {
        Locks {
            exclusive: None,
            shared: 0,
            key: LockString::EMPTY,
            waiting: [NO_REQUEST; SESSIONS],
            count: 0,
        }
    }

    pub fn exclusive_holder(&self) -> Option<u8> {
        self.exclusive
    }

    /// The shared string of a slot that holds one.
    pub fn shared_string(&self, slot: u8) -> Option<&[u8]> {
        (self.shared & bit(slot) != 0).then(|| self.key.as_bytes())
    }

    pub fn waiting(&self) -> &[Request] {
        &self.waiting[..self.count]
    }

    pub fn is_waiting(&self, slot: u8) -> bool {
        self.waiting().iter().any(|request| request.slot == slot)
    }

    /// Sessions that hold any lock, each once.
    pub fn holders(&self) -> u32 {
        (self.shared | self.exclusive.map_or(0, bit)).count_ones()
    }

    /// May data and triggers of this slot go to the instrument?
    #[inline]
    pub fn access(&self, slot: u8) -> bool {
        match self.exclusive {
            Some(holder) => holder == slot,
            None => self.shared == 0 || self.shared & bit(slot) != 0,
        }
    }

    pub fn holds_kind_of(&self, slot: u8, string: &LockString) -> bool {
        if string.is_empty() {
            self.exclusive == Some(slot)
        } else {
            self.shared & bit(slot) != 0
        }
    }

    pub fn may_grant(&self, slot: u8, string: &LockString) -> bool {
        if self.exclusive.is_some_and(|holder| holder != slot) {
            return false;
        }
        if string.is_empty() {
            self.shared & !bit(slot) == 0 || self.shared & bit(slot) != 0
        } else {
            self.shared == 0 || self.key == *string
        }
    }

    pub fn grant(&mut self, slot: u8, string: &LockString) {
        if string.is_empty() {
            self.exclusive = Some(slot);
        } else {
            self.shared |= bit(slot);
            self.key = *string;
        }
    }

    pub fn wait(&mut self, request: Request) {
        self.waiting[self.count] = request;
        self.count += 1;
    }

    /// Which lock a release of this slot frees: exclusive first.
    pub fn to_release(&self, slot: u8) -> Released {
        if self.exclusive == Some(slot) {
            Released::Exclusive
        } else if self.shared & bit(slot) != 0 {
            Released::Shared
        } else {
            Released::Nothing
        }
    }

    pub fn free(&mut self, slot: u8, lock: Released) {
        match lock {
            Released::Exclusive => self.exclusive = None,
            Released::Shared => self.free_shared(slot),
            Released::Nothing => {}
        }
    }

    /// Both locks and the waiting request of a session that is gone.
    pub fn forget(&mut self, slot: u8) {
        if self.exclusive == Some(slot) {
            self.exclusive = None;
        }
        self.free_shared(slot);
        self.withdraw(slot);
    }

    fn free_shared(&mut self, slot: u8) {
        self.shared &= !bit(slot);
        if self.shared == 0 {
            self.key = LockString::EMPTY;
        }
    }

    /// Takes the slot's waiting request away; true if there was one.
    pub fn withdraw(&mut self, slot: u8) -> bool {
        let before = self.count;
        self.keep(|_, request| request.slot != slot);
        self.count < before
    }

    /// Takes away the requests whose deadline is reached, oldest first.
    pub fn expire(&mut self, clock: u64, mut expired: impl FnMut(u8)) {
        self.keep(|_, request| {
            let waits = request.deadline > clock;
            if !waits {
                expired(request.slot);
            }
            waits
        });
    }

    /// Looks at the waiting requests once, oldest first, and grants what may be granted.
    pub fn grant_pass(&mut self, mut granted: impl FnMut(u8)) {
        self.keep(|locks, request| {
            let may = locks.may_grant(request.slot, &request.string);
            if may {
                locks.grant(request.slot, &request.string);
                granted(request.slot);
            }
            !may
        });
    }

    /// Keeps the requests that `stays` says yes to, in order, and blanks the places left over.
    fn keep(&mut self, mut stays: impl FnMut(&mut Locks, &Request) -> bool) {
        let mut kept = 0;
        for i in 0..self.count {
            let request = self.waiting[i];
            if stays(self, &request) {
                if kept < i {
                    self.waiting[kept] = request;
                }
                kept += 1;
            }
        }
        self.waiting[kept..self.count].fill(NO_REQUEST);
        self.count = kept;
    }
}

impl Default for Locks {
    fn default() -> Locks {
        Locks::new()
    }
}
