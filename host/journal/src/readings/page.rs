//! A reading on the page.

use std::io::{self, Write};

use reference::Mode;

use super::talk::{quoted, Act, Answer, Command, Ended, Held, Talk};

pub struct Reading<'a> {
    pub number: usize,
    pub session: u16,
    pub answer: &'a Answer,
    pub ended: Ended,
    pub talk: &'a Talk,
    /// All that acted so far, whoever's.
    pub acts: &'a [Act],
}

impl Reading<'_> {
    pub fn write(&self, out: &mut impl Write) -> io::Result<()> {
        let Answer {
            entry,
            clock,
            message_id,
            payload,
            ..
        } = self.answer;
        let (number, session) = (self.number, self.session);
        let at = format!("session {session}, entry {entry}, {clock} ms, {message_id:08x}");
        writeln!(out, "\nreading {number}: {at}{}", self.how())?;
        writeln!(out, "  {}", quoted(payload))?;
        writeln!(out, "  command: {}", self.command())?;
        self.write_acts(out)?;
        writeln!(out, "  others in between: {}", self.others())?;
        writeln!(out, "  exclusive lock: {}", self.lock())
    }

    /// In how many parts it was sent, and what kept it from its end.
    fn how(&self) -> String {
        let parts = match self.answer.parts {
            1 => String::new(),
            parts => format!(", {parts} parts"),
        };
        let ended = match self.ended {
            Ended::End => "",
            Ended::Interrupted => ", not ended: interrupted",
            Ended::Asked => ", not ended: another question came",
            Ended::Cleared => ", not ended: device clear",
            Ended::Closed => ", not ended: the session closed",
            Ended::Journal => ", not ended: the journal ends",
        };
        parts + ended
    }

    /// By the number that the answer carries; in overlap mode it counts answers.
    fn command(&self) -> String {
        let at = |command: &Command| {
            let Command { entry, clock, says } = command;
            format!("entry {entry}, {clock} ms, {says}")
        };
        match (self.talk.mode, &self.answer.command) {
            (_, None) => "none".into(),
            (Mode::Synchronized, Some(command)) => at(command),
            (Mode::Overlap, Some(command)) => {
                format!("not named in overlap mode; the last was {}", at(command))
            }
        }
    }

    /// From the session's first command to this answer; none if the command came later, as one may in overlap mode.
    fn since_first(&self) -> &[Act] {
        let since = |first| self.acts.get(first..self.answer.acts);
        self.talk.first.and_then(since).unwrap_or_default()
    }

    /// Those that a reading of this session has listed already are not listed again.
    fn write_acts(&self, out: &mut impl Write) -> io::Result<()> {
        let since = self.since_first();
        let Some(first) = since.first() else {
            return writeln!(out, "  acted: no command of the session yet");
        };
        let (count, entry) = (since.len(), first.entry);
        let seen = self.talk.listed.map_or(0, |(_, acts)| acts);
        let seen = seen.saturating_sub(self.talk.first.unwrap_or(0)).min(count);
        let before = match self.talk.listed {
            Some((reading, _)) if seen > 0 => format!(", {seen} of them up to reading {reading}"),
            _ => String::new(),
        };
        writeln!(
            out,
            "  acted since the session's first command, entry {entry}: {count}{before}"
        )?;
        for act in &since[seen..] {
            let Act {
                entry,
                clock,
                session,
                says,
                ..
            } = act;
            writeln!(
                out,
                "    entry {entry}, {clock} ms, session {session} {says}"
            )?;
        }
        Ok(())
    }

    fn others(&self) -> String {
        let told = self.answer.others.iter().map(|(session, did)| {
            let parts = [
                counted(did.commands, "command"),
                counted(did.clears, "device clear"),
            ];
            let parts: Vec<String> = parts.into_iter().flatten().collect();
            format!("session {session} ({})", parts.join(", "))
        });
        let told: Vec<String> = told.collect();
        match told.is_empty() {
            true => "none".into(),
            false => told.join(", "),
        }
    }

    fn lock(&self) -> String {
        match self.answer.held {
            Held::AllTheWhile(since) => format!("held all the while, since entry {since}"),
            Held::Since(since) => format!("not all the while; held since entry {since}"),
            Held::Not => "not held".into(),
        }
    }
}

fn counted(count: usize, what: &str) -> Option<String> {
    match count {
        0 => None,
        1 => Some(format!("1 {what}")),
        _ => Some(format!("{count} {what}s")),
    }
}
