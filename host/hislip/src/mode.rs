//! The two modes of IVI-6.1.

use std::fmt;

/// How a session's answers are numbered, and when they count as delivered.
#[derive(Clone, Copy, Debug, Default, PartialEq, Eq, Hash)]
pub enum Mode {
    /// An answer carries the MessageID of its question.
    #[default]
    Synchronized,
    /// An answer carries a count of the session's answers; nothing need be asked.
    Overlap,
}

impl Mode {
    /// The mode that bit 0 of a control code names: of InitializeResponse and
    /// AsyncDeviceClearAcknowledge, where it is the server's preference, and of DeviceClearComplete and
    /// DeviceClearAcknowledge, where it is the session's mode from then on.
    pub fn of_code(code: u8) -> Mode {
        match code & 1 {
            0 => Mode::Synchronized,
            _ => Mode::Overlap,
        }
    }

    /// The number of the C interface, and bit 0 of a control code.
    pub fn number(self) -> u8 {
        self as u8
    }

    /// Its name.
    pub fn name(self) -> &'static str {
        match self {
            Mode::Synchronized => "synchronized",
            Mode::Overlap => "overlap",
        }
    }
}

impl fmt::Display for Mode {
    fn fmt(&self, f: &mut fmt::Formatter<'_>) -> fmt::Result {
        f.write_str(self.name())
    }
}
