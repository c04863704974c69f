//! The server that a journal begins with: stated, or as the journal itself says it. The vendor number stands in
//! the first AsyncInitializeResponse, the preferred mode in the first InitializeResponse; before these nothing
//! depends on them.

use query::names;
use reference::event::{frames, Frame};
use reference::journal::{layout, reader};
use reference::{Fresh, Mode};

pub struct Origin {
    vendor: Option<u16>,
    prefers: Option<Mode>,
    stated: bool,
}

impl Origin {
    pub fn of(book: &[u8], stated: Option<Fresh>) -> Origin {
        match stated {
            Some(fresh) => Origin {
                vendor: Some(fresh.vendor),
                prefers: Some(fresh.prefers),
                stated: true,
            },
            None => Origin {
                vendor: first(book, names::ASYNC_INITIALIZE_RESPONSE, |frame| {
                    frame.parameter as u16
                }),
                prefers: first(book, names::INITIALIZE_RESPONSE, |frame| {
                    Mode::of_code(frame.code)
                }),
                stated: false,
            },
        }
    }

    pub fn fresh(&self) -> Fresh {
        Fresh {
            vendor: self.vendor.unwrap_or_default(),
            prefers: self.prefers.unwrap_or_default(),
        }
    }

    pub fn describe(&self) -> String {
        let vendor = match self.vendor {
            Some(vendor) => {
                let letters = vendor.to_be_bytes();
                format!("vendor {vendor:04x} \"{}\"", letters.escape_ascii())
            }
            None => "vendor not told".into(),
        };
        let mode = self.prefers.map_or("mode not told", Mode::name);
        let source = match self.stated {
            true => "as stated",
            false => "as the journal says",
        };
        format!("server: {vendor}, {mode}, {source}")
    }
}

/// What the first frame of a type says.
fn first<T>(book: &[u8], kind: u8, says: impl Fn(&Frame) -> T) -> Option<T> {
    reader::entries(book).find_map(|found| {
        let (_, output) = layout::decode(found.body)?;
        let sent = frames(output)?;
        sent.iter().find(|frame| frame.kind == kind).map(&says)
    })
}
