//! What the host is told, each answer in one piece.

use reference::{Refusal, Reply};

const NOTHING: Reply = Reply {
    refusal: 0,
    outcome: 0,
    session: 0,
    taken: 0,
    output: 0,
    missing: 0,
    withheld: 0,
    pattern: 0,
    place: 0,
};

pub fn refused(refusal: Refusal) -> Reply {
    Reply {
        refusal: refusal as u64,
        ..NOTHING
    }
}

pub fn done(output: usize) -> Reply {
    Reply {
        output: output as u64,
        ..NOTHING
    }
}

/// An answer of the instrument that was not sent.
pub fn withheld(output: usize) -> Reply {
    Reply {
        output: output as u64,
        withheld: 1,
        ..NOTHING
    }
}

pub fn more_needed(missing: u64) -> Reply {
    Reply {
        outcome: Reply::MORE_NEEDED,
        missing,
        ..NOTHING
    }
}

pub fn skipped(taken: u64) -> Reply {
    Reply {
        outcome: Reply::SKIPPED,
        taken,
        ..NOTHING
    }
}

pub fn held() -> Reply {
    Reply {
        outcome: Reply::HELD,
        ..NOTHING
    }
}

pub fn ignored(taken: usize) -> Reply {
    Reply {
        outcome: Reply::IGNORED,
        taken: taken as u64,
        ..NOTHING
    }
}

pub fn error_sent(taken: usize, output: usize) -> Reply {
    Reply {
        outcome: Reply::ERROR_SENT,
        taken: taken as u64,
        output: output as u64,
        ..NOTHING
    }
}

pub fn closed(session: u16, output: usize) -> Reply {
    Reply {
        outcome: Reply::CLOSED,
        session: session.into(),
        output: output as u64,
        ..NOTHING
    }
}

pub fn acted_on(session: u16, taken: usize, output: usize) -> Reply {
    Reply {
        outcome: Reply::ACTED_ON,
        session: session.into(),
        taken: taken as u64,
        output: output as u64,
        ..NOTHING
    }
}
