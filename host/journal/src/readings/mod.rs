//! `journal readings`: what a signer checks a page against. For each answer its command, the commands that
//! acted on the instrument since the session's first, who else acted in between, and whether the session held the
//! exclusive lock all the while.

mod page;
mod talk;

use std::collections::BTreeMap;
use std::io::{self, Write};

use query::message::Message;
use query::names;
use reference::event::Event;
use reference::journal::reader;
use reference::{Fresh, Mode};

use crate::walk::{Step, Walk};
use talk::{Act, Ended, Part, Talk};

/// The readings of an accepted book.
pub fn readings(book: &[u8], fresh: Fresh, out: &mut impl Write) -> io::Result<()> {
    let mut walk = Walk::new(fresh);
    let mut readings = Readings::new(out);
    for found in reader::entries(book) {
        match walk.body(found.body) {
            Ok(step) => readings.step(&step)?,
            Err(_) => break,
        }
    }
    readings.finish()
}

struct Readings<'a, W> {
    sessions: BTreeMap<u16, Talk>,
    /// All that acted on the instrument, in order.
    acts: Vec<Act>,
    count: usize,
    out: &'a mut W,
}

impl<'a, W: Write> Readings<'a, W> {
    fn new(out: &'a mut W) -> Readings<'a, W> {
        Readings {
            sessions: BTreeMap::new(),
            acts: Vec::new(),
            count: 0,
            out,
        }
    }

    fn step(&mut self, step: &Step) -> io::Result<()> {
        if let Some(session) = step.session {
            if step.interrupted().is_some() {
                self.end(session, Ended::Interrupted)?;
            }
            if step.closed() {
                self.end(session, Ended::Closed)?;
                self.sessions.remove(&session);
            } else if let Some(message) = step.acted() {
                self.acted(step, session, message)?;
            } else if let Event::Answer { payload, end, .. } = &step.event {
                if step.reply.withheld == 0 {
                    self.answered(step, session, payload, *end != 0)?;
                }
            }
        }
        self.follow_locks(step);
        Ok(())
    }

    fn acted(&mut self, step: &Step, session: u16, message: Message) -> io::Result<()> {
        match message.kind {
            names::INITIALIZE => {
                let told = step.sent(names::INITIALIZE_RESPONSE);
                let mode = told.map_or(Mode::default(), |frame| Mode::of_code(frame.code));
                self.sessions.insert(session, Talk::new(mode));
            }
            names::DEVICE_CLEAR_COMPLETE => {
                let told = step.sent(names::DEVICE_CLEAR_ACKNOWLEDGE);
                if let (Some(talk), Some(frame)) = (self.sessions.get_mut(&session), told) {
                    talk.mode = Mode::of_code(frame.code);
                }
            }
            names::ASYNC_DEVICE_CLEAR => {
                self.end(session, Ended::Cleared)?;
                self.push(Act::of(step, session, &message));
                if let Some(talk) = self.sessions.get_mut(&session) {
                    talk.clear();
                }
            }
            names::DATA | names::DATA_END | names::TRIGGER => {
                if let Some(talk) = self.sessions.get_mut(&session) {
                    talk.command(step, self.acts.len(), &message);
                }
                self.push(Act::of(step, session, &message));
            }
            _ => {}
        }
        Ok(())
    }

    fn push(&mut self, act: Act) {
        for (session, talk) in &mut self.sessions {
            if *session != act.session {
                talk.other_acted(&act);
            }
        }
        self.acts.push(act);
    }

    /// A part of an answer was sent; the one with END ends it.
    fn answered(&mut self, step: &Step, session: u16, payload: &[u8], end: bool) -> io::Result<()> {
        let message_id = step.frames.first().map_or(0, |frame| frame.parameter);
        let part = Part {
            entry: step.entry,
            clock: step.view.clock,
            message_id,
            payload,
        };
        let talk = self.sessions.get(&session);
        if talk.is_some_and(|talk| talk.asked_anew(message_id)) {
            self.end(session, Ended::Asked)?;
        }
        if let Some(talk) = self.sessions.get_mut(&session) {
            talk.answered(part, &self.acts);
        }
        match end {
            true => self.end(session, Ended::End),
            false => Ok(()),
        }
    }

    /// What was sent of an answer, if anything, is a reading now.
    fn end(&mut self, session: u16, ended: Ended) -> io::Result<()> {
        let Some(talk) = self.sessions.get_mut(&session) else {
            return Ok(());
        };
        let Some(answer) = talk.answer.take() else {
            return Ok(());
        };
        self.count += 1;
        let page = page::Reading {
            number: self.count,
            session,
            answer: &answer,
            ended,
            talk,
            acts: &self.acts,
        };
        page.write(self.out)?;
        talk.listed = Some((self.count, answer.acts));
        Ok(())
    }

    fn follow_locks(&mut self, step: &Step) {
        let holder = step.view.sessions.iter().find(|entry| entry.exclusive);
        let holder = holder.map(|entry| entry.session);
        for (session, talk) in &mut self.sessions {
            match holder == Some(*session) {
                true => _ = talk.exclusive_since.get_or_insert(step.entry),
                false => talk.exclusive_since = None,
            }
        }
    }

    fn finish(mut self) -> io::Result<()> {
        let open: Vec<u16> = self.sessions.keys().copied().collect();
        for session in open {
            self.end(session, Ended::Journal)?;
        }
        match self.count {
            0 => writeln!(self.out, "\nno readings"),
            _ => Ok(()),
        }
    }
}
