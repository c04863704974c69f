//! The archive, and a second build of it in another folder.

use std::fs;
use std::path::Path;

use record::machine;
use record::text::grouped;

use crate::section::{table, Section};

const TITLE: &str = "The archive";

/// `second` is the archive of the second build.
pub fn section(second: &Path) -> Section {
    let first = Path::new(hislip::ARCHIVE);
    let (Some(sum), Ok(bytes)) = (machine::sha256(first), fs::read(first)) else {
        return Section::not_run(TITLE, "`make library` builds it");
    };
    let again = machine::sha256(second);
    let rows = [
        ("bytes", grouped(bytes.len())),
        ("SHA-256", sum.clone()),
        (
            "SHA-256 of a second build, from a copy of the sources in another folder",
            again.clone().unwrap_or("not built".into()),
        ),
    ];
    let rows = rows.map(|(what, told)| [what.to_owned(), told]);
    let verdict = match &again {
        Some(again) if *again == sum => "The two builds are equal, byte for byte.",
        Some(_) => "THE TWO BUILDS DIFFER.",
        None => "Not run: the second build.",
    };
    let body = format!("{}\n{verdict}\n", table(["what", ""], rows));
    Section::when(TITLE, again.is_none_or(|again| again == sum), body)
}
