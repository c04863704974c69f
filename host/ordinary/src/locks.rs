//! Who holds which lock and who waits, by slot. All shared holders have the same string, so it is kept
//! once.

use reference::limits::{LOCK_STRING, SESSIONS};

/// One bit for each slot.
type Set = u64;
const _: () = assert!(SESSIONS <= Set::BITS as usize);

#[derive(Clone, Hash)]
pub struct LockString {
    length: u16,
    bytes: [u8; LOCK_STRING],
}

const EMPTY: LockString = LockString {
    length: 0,
    bytes: [0; LOCK_STRING],
};

impl LockString {
    pub fn as_bytes(&self) -> &[u8] {
        &self.bytes[..usize::from(self.length)]
    }

    fn keep(&mut self, string: &[u8]) {
        self.bytes[..string.len()].copy_from_slice(string);
        self.length = string.len() as u16;
    }
}

/// A waiting request; the empty string asks for the exclusive lock.
#[derive(Clone, Hash)]
pub struct Request {
    pub deadline: u64,
    /// Where it is answered.
    pub connection: u8,
    pub string: LockString,
}

const NO_REQUEST: Request = Request {
    deadline: 0,
    connection: 0,
    string: EMPTY,
};

/// What a request comes to; the discriminants are the answers' codes.
#[derive(Clone, Copy, PartialEq, Eq)]
pub enum Requested {
    NotNow = 0,
    Granted = 1,
    Wrong = 3,
    Waits,
}

/// What a release frees; the discriminants are the answers' codes.
#[derive(Clone, Copy, PartialEq, Eq, Hash)]
pub enum Released {
    Exclusive = 1,
    Shared = 2,
    Nothing = 3,
}

#[derive(Clone, Hash)]
pub struct Locks {
    /// At most one.
    exclusive: Set,
    shared: Set,
    waiting: Set,
    /// The slots that wait, by arrival: the first `queued` places.
    queue: [u8; SESSIONS],
    queued: usize,
    /// By slot.
    requests: [Request; SESSIONS],
    shared_string: LockString,
}

fn bit(slot: u8) -> Set {
    1 << slot
}

impl Locks {
    pub fn new() -> Locks {
        Locks {
            exclusive: 0,
            shared: 0,
            waiting: 0,
            queue: [0; SESSIONS],
            queued: 0,
            requests: [NO_REQUEST; SESSIONS],
            shared_string: EMPTY,
        }
    }

    /// May Data, DataEND and Trigger of this slot go to the instrument?
    pub fn access(&self, slot: u8) -> bool {
        let holders = if self.exclusive != 0 {
            self.exclusive
        } else {
            self.shared
        };
        holders == 0 || holders & bit(slot) != 0
    }

    pub fn exclusive_held(&self) -> bool {
        self.exclusive != 0
    }

    /// Sessions that hold any lock, each once.
    pub fn holders(&self) -> u32 {
        (self.exclusive | self.shared).count_ones()
    }

    /// The same by slot.
    pub fn holding(&self) -> impl Iterator<Item = u8> + '_ {
        let holders = self.exclusive | self.shared;
        (0..SESSIONS as u8).filter(move |slot| holders & bit(*slot) != 0)
    }

    /// The requests that wait, by arrival, each with its slot.
    pub fn waiting(&self) -> impl Iterator<Item = (u8, &Request)> {
        let slots = self.queue[..self.queued].iter();
        slots.map(|slot| (*slot, &self.requests[usize::from(*slot)]))
    }

    pub fn has_exclusive(&self, slot: u8) -> bool {
        self.exclusive & bit(slot) != 0
    }

    /// The shared string of a slot that holds one.
    pub fn shared_by(&self, slot: u8) -> Option<&[u8]> {
        (self.shared & bit(slot) != 0).then(|| self.shared_string.as_bytes())
    }

    fn may_grant(&self, slot: u8, string: &[u8]) -> bool {
        if self.exclusive & !bit(slot) != 0 {
            return false;
        }
        if string.is_empty() {
            self.shared == 0 || self.shared & bit(slot) != 0
        } else {
            self.shared == 0 || self.shared_string.as_bytes() == string
        }
    }

    pub fn request(
        &mut self,
        slot: u8,
        string: &[u8],
        deadline: Option<u64>,
        connection: u8,
    ) -> Requested {
        let kind = if string.is_empty() {
            self.exclusive
        } else {
            self.shared
        };
        if (kind | self.waiting) & bit(slot) != 0 || string.len() > LOCK_STRING {
            return Requested::Wrong;
        }
        if self.may_grant(slot, string) {
            if string.is_empty() {
                self.exclusive = bit(slot);
            } else {
                if self.shared == 0 {
                    self.shared_string.keep(string);
                }
                self.shared |= bit(slot);
            }
            return Requested::Granted;
        }
        let Some(deadline) = deadline else {
            return Requested::NotNow;
        };
        let request = &mut self.requests[usize::from(slot)];
        request.deadline = deadline;
        request.connection = connection;
        request.string.keep(string);
        self.waiting |= bit(slot);
        self.queue[self.queued] = slot;
        self.queued += 1;
        Requested::Waits
    }

    /// What a release of this slot frees: exclusive first.
    pub fn to_release(&self, slot: u8) -> Released {
        if self.exclusive & bit(slot) != 0 {
            Released::Exclusive
        } else if self.shared & bit(slot) != 0 {
            Released::Shared
        } else {
            Released::Nothing
        }
    }

    pub fn free(&mut self, slot: u8, lock: Released) {
        match lock {
            Released::Exclusive => self.exclusive = 0,
            Released::Shared => self.shared &= !bit(slot),
            Released::Nothing => {}
        }
    }

    /// Both locks and the request of a session that is gone.
    pub fn forget(&mut self, slot: u8) {
        self.exclusive &= !bit(slot);
        self.shared &= !bit(slot);
        self.withdraw(slot);
    }

    /// Takes the slot's request away; true if there was one.
    pub fn withdraw(&mut self, slot: u8) -> bool {
        let waited = self.waiting & bit(slot) != 0;
        if waited {
            self.look(|_, other| other == slot, |_, _| ());
        }
        waited
    }

    /// Takes away the requests whose deadline is reached, oldest first, and tells whose each is and where it is
    /// answered.
    pub fn expire(&mut self, clock: u64, tell: impl FnMut(u8, u8)) {
        let late =
            |locks: &mut Locks, slot: u8| locks.requests[usize::from(slot)].deadline <= clock;
        self.look(late, tell);
    }

    /// Looks at the requests once, oldest first, grants what may be granted and tells whose each is and where
    /// it is answered.
    pub fn grant_pass(&mut self, tell: impl FnMut(u8, u8)) {
        self.look(Locks::granted, tell);
    }

    /// Grants a waiting request if it may be granted.
    fn granted(&mut self, slot: u8) -> bool {
        let request = &self.requests[usize::from(slot)];
        let may = self.may_grant(slot, request.string.as_bytes());
        if may && request.string.length == 0 {
            self.exclusive = bit(slot);
        } else if may {
            if self.shared == 0 {
                self.shared_string.clone_from(&request.string);
            }
            self.shared |= bit(slot);
        }
        may
    }

    /// Takes those requests out of the queue that `ends` says yes to; the others keep their order.
    fn look(&mut self, ends: impl Fn(&mut Locks, u8) -> bool, mut tell: impl FnMut(u8, u8)) {
        let mut kept = 0;
        for place in 0..self.queued {
            let slot = self.queue[place];
            if ends(self, slot) {
                self.waiting &= !bit(slot);
                tell(slot, self.requests[usize::from(slot)].connection);
            } else {
                self.queue[kept] = slot;
                kept += 1;
            }
        }
        self.queued = kept;
    }
}
