//! Which commands a pattern spells: a small graph of words and choices, and a search through it that
//! remembers where it failed.

use std::collections::HashSet;

#[derive(Clone, Debug, PartialEq, Eq, Hash)]
enum Node {
    /// Nothing more.
    End,
    /// A word with the colon or star before it, or the question mark, in either form.
    Word {
        short: Vec<u8>,
        long: Vec<u8>,
        then: usize,
    },
    /// Brackets: where their first part is, and where it goes on behind them.
    Brackets { kept: usize, dropped: usize },
}

#[derive(Clone, Debug, PartialEq, Eq, Hash)]
pub struct Pattern {
    nodes: Vec<Node>,
    first: usize,
}

impl Pattern {
    /// Made from the text of a pattern, last part first.
    pub fn of(text: &[u8]) -> Pattern {
        let mut nodes = vec![Node::End];
        // Where each bracket that is open, seen from the end, goes on when it is dropped.
        let mut closings = Vec::new();
        let mut first = 0;
        for part in parts(text).rev() {
            match part {
                b"]" => closings.push(first),
                b"[" => {
                    let dropped = closings.pop().expect("a pattern's brackets are closed");
                    let kept = first;
                    nodes.push(Node::Brackets { kept, dropped });
                    first = nodes.len() - 1;
                }
                word => {
                    let capital = |byte: &u8| !byte.is_ascii_lowercase();
                    nodes.push(Node::Word {
                        short: word.iter().copied().filter(capital).collect(),
                        long: word.to_vec(),
                        then: first,
                    });
                    first = nodes.len() - 1;
                }
            }
        }
        Pattern { nodes, first }
    }

    /// Whether some choice of kept and dropped brackets spells the command.
    pub fn spells(&self, command: &[u8]) -> bool {
        self.spells_from(self.first, command, &mut HashSet::new())
    }

    /// `failed` has the nodes and the lengths of what was left where nothing spelled it.
    fn spells_from(
        &self,
        node: usize,
        command: &[u8],
        failed: &mut HashSet<(usize, usize)>,
    ) -> bool {
        let here = (node, command.len());
        if failed.contains(&here) {
            return false;
        }
        let spelled = match &self.nodes[node] {
            Node::End => command.is_empty(),
            Node::Word { short, long, then } => [short, long].iter().any(|form| {
                let rest = behind(command, form);
                rest.is_some_and(|rest| self.spells_from(*then, rest, failed))
            }),
            Node::Brackets { kept, dropped } => {
                self.spells_from(*kept, command, failed)
                    || self.spells_from(*dropped, command, failed)
            }
        };
        if !spelled {
            failed.insert(here);
        }
        spelled
    }
}

/// Each bracket, the question mark, and each word with the colon or star before it.
fn parts(text: &[u8]) -> impl DoubleEndedIterator<Item = &[u8]> {
    text.chunk_by(|_, next| next.is_ascii_alphabetic())
}

/// What follows a form that a command begins with, in whatever case.
fn behind<'a>(command: &'a [u8], form: &[u8]) -> Option<&'a [u8]> {
    let (first, rest) = command.split_at_checked(form.len())?;
    first.eq_ignore_ascii_case(form).then_some(rest)
}
