//! All parts together.

use std::path::Path;

use record::text::grouped;
use record::{believe, machine};

use crate::section::{Section, State};
use crate::{archive, crates, gate, origin, runs, speed};

/// What no part of the page runs.
const NEVER: &str = "- random lists for hours: `make soak MINUTES=60`\n\
                     - every systematic case, not thinned: `conform systematic`\n";

pub struct Page {
    sections: Vec<Section>,
}

/// Runs what is to be run, and says on the error stream how far it is.
pub fn collect(root: &Path, second: &Path) -> Page {
    let mut sections = vec![
        origin::section(root),
        archive::section(second),
        crates::section(root),
    ];
    sections.push(gate::section(root));
    sections.push(to_believe(root));
    sections.push(runs::conform());
    eprintln!("evidence: wrong servers, about 20 s");
    sections.push(runs::wrong_servers());
    sections.push(speed::section(root));
    Page { sections }
}

fn to_believe(root: &Path) -> Section {
    let title = "To be believed";
    match believe::count(root) {
        Ok((files, sum)) => {
            let (files, lines, imports) = (files.len(), grouped(sum.all), sum.imports);
            let body = format!(
                "{lines} lines of definitions in {files} files, without comments and blank lines; {imports} of \
                 them only name other files. `make believe` lists them.\n"
            );
            Section::good(title, body)
        }
        Err(what) => Section::when(title, false, format!("{what}\n")),
    }
}

impl Page {
    fn those(&self, state: State) -> Vec<&str> {
        let wanted = self
            .sections
            .iter()
            .filter(|section| section.state == state);
        wanted.map(|section| section.title).collect()
    }

    pub fn good(&self) -> bool {
        self.those(State::Wrong).is_empty()
    }

    /// In one line.
    pub fn summary(&self) -> String {
        match (
            &self.those(State::Wrong)[..],
            &self.those(State::NotRun)[..],
        ) {
            ([], []) => "all good".into(),
            ([], rest) => format!("good; not run: {}", rest.join(", ")),
            (wrong, _) => format!("WRONG: {}", wrong.join(", ")),
        }
    }

    pub fn text(&self) -> String {
        let mut text = format!("# Evidence\n\n{}\n", self.opening());
        for section in &self.sections {
            text += &format!("\n## {}\n\n{}", section.title, section.body);
        }
        let skipped = self.those(State::NotRun);
        let skipped: String = skipped
            .iter()
            .map(|title| format!("- {title}: see above\n"))
            .collect();
        let load = machine::load();
        text + &format!("\n## Not run for this page\n\n{skipped}{NEVER}\nLoad of the last 1, 5 and 15 minutes when it was written: {load}.\n")
    }

    fn opening(&self) -> String {
        let how = "Written by `make evidence`: what was built, proved, run and measured in this tree, and what was not.";
        format!("{how} In one line: {}.", self.summary())
    }
}

#[cfg(test)]
mod tests {
    use super::Page;
    use crate::section::Section;

    #[test]
    fn what_was_not_run_is_named() {
        let sections = vec![
            Section::good("A", "a\n".into()),
            Section::not_run("B", "too long"),
        ];
        let mut page = Page { sections };
        assert_eq!(page.summary(), "good; not run: B");
        let text = page.text();
        assert!(text.contains("## B\n\nNot run: too long.\n"), "{text}");
        assert!(
            text.contains("## Not run for this page\n\n- B: see above\n"),
            "{text}"
        );
        page.sections.push(Section::when("C", false, "c\n".into()));
        assert_eq!(
            (page.good(), page.summary()),
            (false, "WRONG: C".to_owned())
        );
    }
}
