//! The two modes of IVI-6.1, and what a fresh server is made from.

/// How the instrument's answers are numbered.
#[derive(Clone, Copy, Debug, Default, PartialEq, Eq, Hash)]
pub enum Mode {
    #[default]
    Synchronized = 0,
    Overlap = 1,
}

impl Mode {
    /// By bit 0 of a control code; the other bits mean nothing here.
    pub fn of_code(code: u8) -> Mode {
        match code & 1 {
            0 => Mode::Synchronized,
            _ => Mode::Overlap,
        }
    }

    pub fn name(self) -> &'static str {
        match self {
            Mode::Synchronized => "synchronized",
            Mode::Overlap => "overlap",
        }
    }
}

/// What a fresh server is made from: the vendor number and the mode it prefers.
#[derive(Clone, Copy, Debug, PartialEq, Eq)]
pub struct Fresh {
    pub vendor: u16,
    pub prefers: Mode,
}

impl Fresh {
    /// 01's bench: vendor "AA", synchronized.
    pub const BENCH: Fresh = Fresh {
        vendor: 0x4141,
        prefers: Mode::Synchronized,
    };
}
