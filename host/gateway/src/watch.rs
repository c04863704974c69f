//! Readings under watch: every session gets the watch of the settings, and a program that asks for the
//! status byte after a service request is told of the next one too.

use hislip::{Frames, Watch};
use query::names;

use crate::gateway::Gateway;
use crate::session::SessionId;

/// A watch as the command line has it: `LIMIT`, or `LOW,HIGH`. The text says what is wrong with it.
pub fn parse(text: &str) -> Result<Watch, String> {
    let wrong = || format!("--watch wants LIMIT or LOW,HIGH, not `{text}`");
    let limit = |text: &str| text.trim().parse::<f32>().map_err(|_| wrong());
    let watch = match text.split_once(',') {
        None => Watch::Above {
            limit: limit(text)?,
        },
        Some((low, high)) => Watch::Outside {
            low: limit(low)?,
            high: limit(high)?,
        },
    };
    let is_good = match watch {
        Watch::Off => true,
        Watch::Above { limit } => !limit.is_nan(),
        Watch::Outside { low, high } => low <= high,
    };
    match is_good {
        true => Ok(watch),
        false => Err(wrong()),
    }
}

impl Gateway {
    /// Sets the watch of the settings for a session; it has not tripped then.
    pub(crate) fn set_watch(&mut self, session: SessionId) {
        if self.watch == Watch::Off {
            return;
        }
        if let Err(refusal) = self.server.watch(session, self.watch) {
            let who = self.who_of(session);
            self.say(who, || format!("watch: {refusal}"));
        }
    }

    /// A program has asked for the status byte: it has seen the service request, if there was one.
    pub(crate) fn status_was_asked(&mut self, session: SessionId) {
        let state = self.sessions.get_mut(&session);
        if state.is_some_and(|state| std::mem::take(&mut state.requested)) {
            self.set_watch(session);
        }
    }

    /// Follows and tells a service request behind an answer.
    pub(crate) fn follow_service_request(&mut self, session: SessionId, output: &[u8]) {
        let mut frames = Frames::new(output);
        let request = frames.find(|frame| frame.kind == names::ASYNC_SERVICE_REQUEST);
        let Some(request) = request else {
            return;
        };
        if let Some(state) = self.sessions.get_mut(&session) {
            state.requested = true;
        }
        let who = self.who_of(session);
        self.say(who, || {
            let readings = match self.server.readings(session) {
                Ok(Some(told)) => {
                    let (lowest, highest) = (told.lowest, told.highest);
                    format!("{lowest} to {highest} so far, last {}", told.last)
                }
                _ => "none that is a number".into(),
            };
            let status = request.code;
            format!("service requested, status byte {status:02x}: readings {readings}")
        });
    }
}

#[cfg(test)]
mod tests {
    use super::parse;
    use hislip::Watch;

    #[test]
    fn limits() {
        let above = |limit| Ok(Watch::Above { limit });
        let outside = |low, high| Ok(Watch::Outside { low, high });
        assert_eq!(parse("1.5"), above(1.5));
        assert_eq!(parse("-2e-3"), above(-2e-3));
        assert_eq!(parse("4.9, 5.1"), outside(4.9, 5.1));
        assert_eq!(parse("-inf,0"), outside(f32::NEG_INFINITY, 0.0));
        assert_eq!(parse("0,-0"), outside(0.0, -0.0));
        for wrong in ["", "x", "nan", "1,nan", "nan,1", "2,1", "1,2,3", "1;2"] {
            let told = parse(wrong).expect_err(wrong);
            assert!(told.ends_with(&format!("not `{wrong}`")), "{told}");
        }
    }
}
