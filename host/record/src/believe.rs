//! The definitions that a reader must believe: `docs/believe.txt` lists their files.

use std::fmt::Write;
use std::fs;
use std::path::Path;

/// The list, from the repository's root.
pub const LIST: &str = "docs/believe.txt";

/// Lines of a file that are neither blank nor comment.
#[derive(Clone, Copy, Debug, Default, PartialEq, Eq)]
pub struct Lines {
    /// All of them.
    pub all: usize,
    /// Of these, the lines that only name other files' definitions.
    pub imports: usize,
}

impl Lines {
    /// The lines of a definition file; a comment begins with two dashes and fills its line.
    pub fn of(text: &str) -> Lines {
        let lines = text.lines().map(str::trim_start);
        let kept = lines.filter(|line| !line.is_empty() && !line.starts_with("--"));
        kept.fold(Lines::default(), |sum, line| Lines {
            all: sum.all + 1,
            imports: sum.imports + usize::from(line.starts_with("use ")),
        })
    }

    fn plus(self, other: Lines) -> Lines {
        Lines {
            all: self.all + other.all,
            imports: self.imports + other.imports,
        }
    }
}

/// A line of the list without its comment.
fn path_of(line: &str) -> &str {
    line.split('#').next().unwrap_or("").trim()
}

/// The paths of the list, in its order.
pub fn paths(list: &str) -> Vec<&str> {
    list.lines()
        .map(path_of)
        .filter(|path| !path.is_empty())
        .collect()
}

/// Every file of the list with its lines, and the sum.
pub fn count(root: &Path) -> Result<(Vec<(String, Lines)>, Lines), String> {
    let list = read(root, LIST)?;
    let mut files: Vec<(String, Lines)> = Vec::new();
    for path in paths(&list) {
        if files.iter().any(|(other, _)| other == path) {
            return Err(format!("{LIST}: {path} stands there twice"));
        }
        files.push((path.to_owned(), Lines::of(&read(root, path)?)));
    }
    let sum = files
        .iter()
        .fold(Lines::default(), |sum, (_, lines)| sum.plus(*lines));
    Ok((files, sum))
}

fn read(root: &Path, path: &str) -> Result<String, String> {
    fs::read_to_string(root.join(path)).map_err(|error| format!("{path}: {error}"))
}

/// The count as a table in plain text.
pub fn table(root: &Path) -> Result<String, String> {
    let (files, sum) = count(root)?;
    let mut text = String::from("lines  imports  file\n");
    let mut row = |lines: Lines, name: &str| {
        writeln!(text, "{:5}  {:7}  {name}", lines.all, lines.imports).expect("a string");
    };
    for (path, lines) in &files {
        row(*lines, path);
    }
    row(sum, &format!("in {} files", files.len()));
    Ok(text)
}

#[cfg(test)]
mod tests {
    use super::{count, paths, Lines};
    use crate::tree::root;

    #[test]
    fn comments_and_blank_lines_do_not_count() {
        let text = "-- why\n\nuse a.{b}\n  -- and why not\nf : N\nf = 0 -- so\n";
        assert_eq!(Lines::of(text), Lines { all: 3, imports: 1 });
    }

    #[test]
    fn the_list_has_comments() {
        let list = "# what\n\na/b.antt # why\n c.antt\n";
        assert_eq!(paths(list), ["a/b.antt", "c.antt"]);
    }

    #[test]
    fn every_file_of_the_list_is_there_once() {
        let (files, sum) = count(&root()).expect("all of them");
        assert!(files.len() > 20, "{files:?}");
        assert!(
            files.iter().all(|(_, lines)| lines.all > lines.imports),
            "{files:?}"
        );
        assert!(sum.all > 1_000, "{sum:?}");
    }
}
