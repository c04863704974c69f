//! The tree that something was built from.

use std::path::{Path, PathBuf};

use crate::machine::printed;

/// The repository, seen from this crate.
pub fn root() -> PathBuf {
    let here = Path::new(env!("CARGO_MANIFEST_DIR"));
    here.join("../..")
}

/// True if files differ from the commit.
fn changed(root: &Path) -> bool {
    let status = printed(root, &["git", "status", "--porcelain"]);
    status.is_none_or(|text| !text.is_empty())
}

fn told(root: &Path, name: &[&str]) -> Option<String> {
    let name = printed(root, &[&["git", "rev-parse"], name].concat())?;
    let changes = if changed(root) { ", with changes" } else { "" };
    Some(name + changes)
}

/// The commit, and whether files differ from it.
pub fn commit(root: &Path) -> Option<String> {
    told(root, &["--short", "HEAD"])
}

/// The id of the commit's tree, and whether files differ from it.
pub fn id(root: &Path) -> Option<String> {
    told(root, &["HEAD^{tree}"])
}
