//! A watch as the host sets it, and its limits.

use std::hash::{Hash, Hasher};

/// An IEEE 754 single. Equal are those of the same bits, so that events and servers can be compared; the rules
/// compare the numbers.
#[derive(Clone, Copy, Debug, Default)]
pub struct Single(pub f32);

impl Single {
    pub fn of_bits(bits: u32) -> Single {
        Single(f32::from_bits(bits))
    }

    pub fn bits(self) -> u32 {
        self.0.to_bits()
    }
}

impl PartialEq for Single {
    fn eq(&self, other: &Single) -> bool {
        self.bits() == other.bits()
    }
}

impl Eq for Single {}

impl Hash for Single {
    fn hash<H: Hasher>(&self, state: &mut H) {
        self.bits().hash(state);
    }
}

/// What the host wants to be told of a session's readings.
#[derive(Clone, Copy, Debug, Default, PartialEq, Eq, Hash)]
pub enum Watch {
    #[default]
    Off,
    Above {
        limit: Single,
    },
    Outside {
        low: Single,
        high: Single,
    },
}

impl Watch {
    pub fn above(limit: f32) -> Watch {
        let limit = Single(limit);
        Watch::Above { limit }
    }

    pub fn outside(low: f32, high: f32) -> Watch {
        let (low, high) = (Single(low), Single(high));
        Watch::Outside { low, high }
    }
}
