//! One server through a list, with demand 3 beside it: canonical history, lock model, count.

use reference::event::{frames, Frame};
use reference::history::{omitted, trimmed};
use reference::lock_model::{LockAnswer, LockModel};
use reference::lock_view::LockView;
use reference::{Event, Fresh, Reply, Row, Subject};

use crate::messages::{header, BEFORE_FIRST};
use crate::traces::{self, strings_gone};
use crate::watch::{Complaint, Side, Watch};

const LOCK_RESPONSE: u8 = 5;
const CLEAR_ACKNOWLEDGE: u8 = 23;
const LOCK_INFO: u8 = 24;
const LOCK_INFO_RESPONSE: u8 = 25;

/// How often the lock model's view is compared with the server's, in events.
const VIEW_EVERY: usize = 8;

pub struct Trial {
    pub watch: Watch,
    /// A second server of the kind that gets the canonical history alone.
    again: Watch,
    pub model: LockModel,
    /// What the lock model answers to the last event.
    answers: Vec<LockAnswer>,
    /// The rows of the holders after the last event.
    pub rows: Vec<Row>,
    /// It promises that nothing of a closed session's strings stays.
    forgets: bool,
}

impl Trial {
    pub fn new(side: &Side, fresh: Fresh) -> Trial {
        Trial {
            watch: Watch::new(side, fresh),
            again: Watch::new(side, fresh),
            model: LockModel::new(),
            answers: Vec::new(),
            rows: Vec::new(),
            forgets: side.forgets,
        }
    }

    /// Goes on from where another one is, with an empty log.
    pub fn restart_from(&mut self, other: &Trial) {
        self.watch.restart_from(&other.watch);
        self.again.restart_from(&other.again);
        self.model.clone_from(&other.model);
    }

    /// Locks held by the server's own word.
    pub fn held(&self) -> u64 {
        self.watch.lock_view().map_or(0, |view| view.held())
    }

    /// Demand 3 of the event that `watch` has just gone through.
    pub fn demand3(&mut self, event: &Event) -> Result<(), Complaint> {
        let (reply, output) = self.watch.log.last();
        let sent = frames(output).ok_or("the output is not a row of whole frames")?;
        self.check_decision(event, &reply, &sent)?;
        let gone = strings_gone(&self.model, event, &reply);
        self.answers.clear();
        self.model.event(event, &reply, &mut self.answers);
        self.compare_answers(&sent)?;
        self.compare_deadline()?;
        self.compare_holders()?;
        if !omitted(event, &reply) {
            self.keep(event)?;
        }
        if self.again.memory() != self.watch.memory() {
            return Err("the canonical history leaves another server than the list".into());
        }
        if self.forgets {
            self.watch.log.sought += traces::look(&self.model, &gone, self.watch.memory())?;
        }
        if self.watch.log.replies.len().is_multiple_of(VIEW_EVERY) {
            self.compare_views()?;
        }
        Ok(())
    }

    /// What is owed at the end of a list; `held` counts the locks held.
    pub fn end(&self, held: u64) -> Result<(), Complaint> {
        self.compare_views()?;
        self.compare_count(held)
    }

    /// The lock model's answers are the type 5 messages sent, in order.
    fn compare_answers(&self, sent: &[Frame]) -> Result<(), Complaint> {
        let lock_frames = sent.iter().filter(|frame| frame.kind == LOCK_RESPONSE);
        let told = lock_frames.map(|frame| LockAnswer {
            connection: frame.connection.into(),
            code: frame.code,
        });
        if told.clone().eq(self.answers.iter().copied()) {
            return Ok(());
        }
        let (told, model) = (told.collect::<Vec<_>>(), &self.answers);
        Err(format!(
            "lock answers {told:?}, by the lock model {model:?}"
        ))
    }

    /// Who waits, and until when, is what the lock model says.
    fn compare_deadline(&self) -> Result<(), Complaint> {
        let (told, model) = (self.watch.subject.deadline(), self.model.deadline());
        match told == model {
            true => Ok(()),
            false => Err(format!("{told:?}, by the lock model {model:?}")),
        }
    }

    /// Who holds what, since when, is what the lock model says.
    fn compare_holders(&mut self) -> Result<(), Complaint> {
        self.rows = self.watch.holders()?;
        self.watch.log.holders.push(self.rows.len());
        if self.rows.iter().copied().eq(self.model.holders()) {
            return Ok(());
        }
        let (told, model) = (&self.rows, self.model.holders().collect::<Vec<_>>());
        Err(format!("holders {told:?}, by the lock model {model:?}"))
    }

    /// Access and AsyncLockInfo go by the lock model's holders.
    fn check_decision(
        &self,
        event: &Event,
        reply: &Reply,
        sent: &[Frame],
    ) -> Result<(), Complaint> {
        let Event::Deliver {
            connection, bytes, ..
        } = event
        else {
            return Ok(());
        };
        if reply.refusal != 0 {
            return Ok(());
        }
        let session = self.model.session_of(*connection).unwrap_or(0);
        match (reply.outcome, bytes.get(2)) {
            (Reply::HELD, _) if self.model.access(session) => {
                Err("held, though by the lock model it has access".into())
            }
            (Reply::ACTED_ON, Some(6 | 7 | 12)) if !self.model.access(session) => {
                Err("acted on, though by the lock model it has no access".into())
            }
            (Reply::ACTED_ON, Some(&LOCK_INFO)) => {
                let expected = self.model.info();
                let told = |frame: &Frame| (frame.code, frame.parameter);
                let mut info = sent.iter().filter(|frame| frame.kind == LOCK_INFO_RESPONSE);
                match info.next().map(told) {
                    Some(found) if found == expected => Ok(()),
                    found => Err(format!("lock info {found:?}, by the model {expected:?}")),
                }
            }
            _ => Ok(()),
        }
    }

    /// A kept call of the canonical history: same answer, same frames.
    fn keep(&mut self, event: &Event) -> Result<(), Complaint> {
        let (reply, output) = self.watch.log.last();
        let again = self.again.event(&trimmed(event, &reply))?;
        if again != reply {
            return Err(format!(
                "answer {again:?} in the canonical history, {reply:?} in the list"
            ));
        }
        if self.again.log.last().1 != output {
            return Err("other frames in the canonical history than in the list".into());
        }
        Ok(())
    }

    fn compare_views(&self) -> Result<(), Complaint> {
        match self.again.lock_view() {
            Some(view) if view != self.model.view() => Err(format!(
                "locks {view:?}, by the lock model {:?}",
                self.model.view()
            )),
            _ => Ok(()),
        }
    }

    /// Granted = released + dropped + held, and the server gives back just those that are held.
    fn compare_count(&self, held: u64) -> Result<(), Complaint> {
        let count = self.model.count();
        if count.granted != count.released + count.dropped + held {
            return Err(format!("{count:?} do not add up with {held} held"));
        }
        match given_back(self.watch.subject.fork(), &self.model.view()) {
            Some(found) if found != held => {
                Err(format!("{held} locks held, but {found} can be released"))
            }
            _ => Ok(()),
        }
    }
}

/// Counts the locks of a server by releasing all of them. None if some channel cannot be asked,
/// because it has payload to skip.
fn given_back(mut server: Box<dyn Subject>, view: &LockView) -> Option<u64> {
    let mut out = [0; 2048];
    let channels = || view.sessions.iter().filter_map(|entry| entry.asynchronous);
    let (mut found, mut granted) = (0, 0);
    for channel in channels() {
        // A clear ends a standing release and withdraws the waiting request, so that afterwards no
        // release stands or grants anything.
        let clear = server.deliver(channel.into(), &header(19, 0, 0, 0), &mut out);
        if clear.outcome != Reply::ACTED_ON {
            return None;
        }
        let sent = frames(out.get(..clear.output as usize)?)?;
        let mut direct = sent.split(|frame| frame.kind == CLEAR_ACKNOWLEDGE);
        found += direct.next().map_or(0, locks_answered);
        granted += direct.next().map_or(0, locks_answered);
    }
    for channel in channels() {
        for _ in 0..3 {
            let release = header(4, 0, BEFORE_FIRST, 0);
            let told = server.deliver(channel.into(), &release, &mut out);
            found += locks_answered(&frames(out.get(..told.output as usize)?)?);
        }
    }
    // What a clear granted to others was not held before it.
    found.checked_sub(granted)
}

/// Lock answers that say granted or released.
fn locks_answered(sent: &[Frame]) -> u64 {
    let told = |frame: &&Frame| frame.kind == LOCK_RESPONSE && matches!(frame.code, 1 | 2);
    sent.iter().filter(told).count() as u64
}
