//! `journal print`: each entry as a line, and the verdict last.

use std::io::{self, Write};

use reference::journal::reader;
use reference::verifier::{judge, Verdict};
use reference::Fresh;

use crate::walk::Walk;
use crate::{locks, plain};

/// The entries that the forward reader finds. From the first wrong one on only what stands in them is
/// told: who did what and who holds what would be a guess.
pub fn print(book: &[u8], fresh: Fresh, out: &mut impl Write) -> io::Result<Verdict> {
    let mut walk = Some(Walk::new(fresh));
    for (entry, found) in reader::entries(book).enumerate() {
        let step = walk.as_mut().map(|walk| walk.body(found.body));
        match step {
            Some(Ok(step)) => {
                let (clock, locks) = (step.view.clock, locks::describe(&step.view));
                writeln!(out, "{entry:6} {clock:8} ms  {}; {locks}", step.describe())?;
            }
            wrong => {
                if let Some(Err(fault)) = wrong {
                    writeln!(
                        out,
                        "entry {entry} is wrong: {fault}; not replayed from here on"
                    )?;
                    walk = None;
                }
                writeln!(
                    out,
                    "{entry:6} {:8}     {}",
                    "",
                    plain::describe(found.body)
                )?;
            }
        }
    }
    Ok(judge(fresh, book))
}
