//! Two servers, one list.

use reference::{Event, Fresh, Reply, Row};

use crate::asking::Roll;
use crate::demand3::Trial;
use crate::report::describe_reply;
use crate::watch::{Complaint, Side};

/// Two servers that must agree.
#[derive(Clone, Copy)]
pub struct Pair {
    pub left: Side,
    pub right: Side,
}

/// Where two servers differ, or where one breaks a promise.
#[derive(Clone, Debug, PartialEq, Eq)]
pub struct Difference {
    /// The event, counted from 0.
    pub place: usize,
    pub what: Complaint,
}

/// A list on which two servers differ.
#[derive(Clone, Debug)]
pub struct Failed {
    pub fresh: Fresh,
    pub list: Vec<Event>,
    /// So many events at the beginning prepare what the list is about.
    pub prepares: usize,
    pub difference: Difference,
    /// The command, after `conform`, that runs it again.
    pub again: String,
}

impl Failed {
    /// A list that is not random; the difference's place is counted from the end of `prepares`.
    pub fn after(prepares: &[Event], list: &[Event], found: Difference, again: &str) -> Failed {
        Failed {
            fresh: BENCH,
            list: [prepares, list].concat(),
            prepares: prepares.len(),
            difference: Difference {
                place: prepares.len() + found.place,
                ..found
            },
            again: again.into(),
        }
    }

    /// The same list from another fresh server than the bench's.
    pub fn from(self, fresh: Fresh) -> Failed {
        Failed { fresh, ..self }
    }
}

/// What most lists that are not random start from.
pub const BENCH: Fresh = Fresh::BENCH;

/// Two servers under watch, each with demand 3 beside it.
pub struct Bout {
    pair: Pair,
    pub left: Trial,
    pub right: Trial,
    roll: Roll,
}

/// A complaint with the server's name before it.
fn of(side: Side) -> impl Fn(Complaint) -> Complaint {
    move |what| format!("{}: {what}", side.name)
}

/// The same for what demand 3 finds.
fn by_demand3(side: Side) -> impl Fn(Complaint) -> Complaint {
    move |what| format!("{}, demand 3: {what}", side.name)
}

impl Bout {
    pub fn new(pair: Pair, fresh: Fresh) -> Bout {
        Bout {
            pair,
            left: Trial::new(&pair.left, fresh),
            right: Trial::new(&pair.right, fresh),
            roll: Roll::default(),
        }
    }

    /// Both go on from where another bout is, with empty logs.
    pub fn restart_from(&mut self, other: &Bout) {
        self.left.restart_from(&other.left);
        self.right.restart_from(&other.right);
        self.roll.clone_from(&other.roll);
    }

    /// One event on both. The answer is the left one's, which is the right one's too.
    pub fn event(&mut self, event: &Event) -> Result<Reply, Complaint> {
        let Pair { left, right } = self.pair;
        let first = self.left.watch.event(event).map_err(of(left))?;
        let second = self.right.watch.event(event).map_err(of(right))?;
        if first != second {
            let told = |reply: &Reply| describe_reply(event, reply);
            let (first, second) = (told(&first), told(&second));
            return Err(format!("{}: {first}; {}: {second}", left.name, right.name));
        }
        let (_, sent) = self.left.watch.log.last();
        let (_, sent_too) = self.right.watch.log.last();
        if sent != sent_too {
            return Err(format!(
                "{} sends {sent:02x?}, {} sends {sent_too:02x?}",
                left.name, right.name
            ));
        }
        self.left.demand3(event).map_err(by_demand3(left))?;
        self.right.demand3(event).map_err(by_demand3(right))?;
        self.ask()?;
        Ok(first)
    }

    /// The questions, of both.
    fn ask(&mut self) -> Result<(), Complaint> {
        let Pair { left, right } = self.pair;
        self.roll.after(&self.left.model);
        let (one, other) = (&mut self.left.watch, &mut self.right.watch);
        let asked = self.roll.ask(one.subject.as_ref(), other.subject.as_ref());
        let asked = asked.and(same_rows(&self.left.rows, &self.right.rows));
        asked.map_err(|[what, first, second]| {
            format!("{what}, {}: {first}; {}: {second}", left.name, right.name)
        })?;
        one.unchanged().map_err(of(left))?;
        other.unchanged().map_err(of(right))
    }

    /// What demand 3 owes at the end of a list, for both.
    pub fn end(&self) -> Result<(), Complaint> {
        let held = self.left.held();
        self.left.end(held).map_err(by_demand3(self.pair.left))?;
        self.right.end(held).map_err(by_demand3(self.pair.right))
    }

    /// A whole list from where both are.
    pub fn run(&mut self, list: &[Event]) -> Result<(), Difference> {
        for (place, event) in list.iter().enumerate() {
            self.event(event)
                .map_err(|what| Difference { place, what })?;
        }
        let place = list.len().saturating_sub(1);
        self.end().map_err(|what| Difference { place, what })
    }
}

/// The rows of the holders that two servers told.
fn same_rows(left: &[Row], right: &[Row]) -> Result<(), [Complaint; 3]> {
    if left == right {
        return Ok(());
    }
    let [left, right] = [left, right].map(|told| format!("{told:?}"));
    Err(["the holders".into(), left, right])
}

/// Runs a list that is not random; returns the events run.
pub fn check_list(pair: Pair, fresh: Fresh, again: &str, list: &[Event]) -> Result<usize, Failed> {
    let ran = Bout::new(pair, fresh).run(list);
    ran.map_err(|difference| Failed::after(&[], list, difference, again).from(fresh))?;
    Ok(list.len())
}

/// Runs a list on one server with the checks that need no second one.
pub fn run_alone(side: &Side, fresh: Fresh, list: &[Event]) -> Result<(), Complaint> {
    let mut trial = Trial::new(side, fresh);
    for event in list {
        trial.watch.event(event)?;
        trial.demand3(event)?;
    }
    trial.end(trial.held())
}
