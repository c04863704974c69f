//! A part of the page, and how it came out.

/// How a part came out.
#[derive(Clone, Copy, Debug, PartialEq, Eq)]
pub enum State {
    /// It was done, and came out as it must.
    Good,
    /// It was done, and did not.
    Wrong,
    /// It was not done for this tree or this archive.
    NotRun,
}

/// One part of the page.
#[derive(Debug)]
pub struct Section {
    pub title: &'static str,
    pub state: State,
    /// Markdown.
    pub body: String,
}

impl Section {
    pub fn good(title: &'static str, body: String) -> Section {
        Section::when(title, true, body)
    }

    pub fn when(title: &'static str, good: bool, body: String) -> Section {
        let state = if good { State::Good } else { State::Wrong };
        Section { title, state, body }
    }

    /// Not done, and what would do it.
    pub fn not_run(title: &'static str, why: &str) -> Section {
        Section {
            title,
            state: State::NotRun,
            body: format!("Not run: {why}.\n"),
        }
    }
}

/// A Markdown table.
pub fn table<const N: usize>(
    head: [&str; N],
    rows: impl IntoIterator<Item = [String; N]>,
) -> String {
    let mut text = format!("| {} |\n{}|\n", head.join(" | "), "|---".repeat(N));
    for row in rows {
        text += &format!("| {} |\n", row.join(" | "));
    }
    text
}

#[cfg(test)]
mod tests {
    use super::table;

    #[test]
    fn a_table_has_a_head_and_rows() {
        let rows = [["x".to_owned(), "1".to_owned()]];
        let expected = "| a | b |\n|---|---|\n| x | 1 |\n";
        assert_eq!(table(["a", "b"], rows), expected);
    }
}
