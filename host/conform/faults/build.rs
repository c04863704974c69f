//! Copies the reference server once for each entry of `faults.txt`, with that entry's line changed.
//!
//! An entry is a row of `name:`, `breaks:`, `alone:` (optional), `file:`, `in:` (optional), `old:`
//! and `new:` lines. `old` must occur exactly once in the file, or in the function that `in` names,
//! so that an entry cannot go stale unnoticed. A second change has lines `also file:` and so on.

use std::collections::BTreeMap;
use std::path::{Path, PathBuf};
use std::{env, fmt::Write, fs};

const MODULES: [&str; 13] = [
    "acts", "commands", "delivery", "grammar", "holders", "limits", "locks", "readings", "reply",
    "server", "spelling", "watching", "wire",
];
/// Those that know nothing of the server: a copy that does not change them has the reference's own, which is
/// compiled once. `limits` is in some of them.
const SHARED: [&str; 7] = [
    "grammar", "limits", "locks", "readings", "reply", "spelling", "wire",
];
/// What stands before the names of lines: nothing, and for a second change.
const CHANGES: [&str; 2] = ["", "also "];

type Entry<'a> = BTreeMap<&'a str, &'a str>;

fn main() {
    println!("cargo:rerun-if-changed=faults.txt");
    println!("cargo:rerun-if-changed=../../reference/src");
    let out = PathBuf::from(env::var("OUT_DIR").expect("cargo sets it"));
    let text = fs::read_to_string("faults.txt").expect("faults.txt");
    let mut code = String::new();
    let mut table = String::new();
    for block in text.split("\n\n").filter(|block| block.contains("name:")) {
        let entry = parse(block);
        copy(&out.join(entry["name"]), &entry);
        module(&mut code, &out, &entry);
        row(&mut table, &entry);
    }
    let all = format!("pub static ALL: &[Fault] = &[\n{table}];\n");
    fs::write(out.join("faults.rs"), code + &all).expect("written");
}

fn parse(block: &str) -> Entry<'_> {
    let lines = block.lines().filter(|line| !line.starts_with('#'));
    let pairs = lines.filter_map(|line| line.split_once(": "));
    pairs.map(|(key, value)| (key.trim(), value)).collect()
}

/// Whether a copy has the reference's own module.
fn is_shared(module: &str, entry: &Entry) -> bool {
    let files = CHANGES.map(|change| entry.get(&*format!("{change}file")).copied());
    let names = |name: &str| files.contains(&Some(&*format!("{name}.rs")));
    SHARED.contains(&module) && !names(module) && !names("limits")
}

fn copy(directory: &Path, entry: &Entry) {
    fs::create_dir_all(directory).expect("created");
    for module in MODULES.iter().filter(|module| !is_shared(module, entry)) {
        let file = format!("{module}.rs");
        let path = Path::new("../../reference/src").join(&file);
        let mut source = fs::read_to_string(path).expect("the reference's source");
        for change in CHANGES {
            let line = |name: &str| entry.get(&*format!("{change}{name}")).copied();
            if line("file") == Some(&file) {
                source = changed(&source, entry["name"], line);
            }
        }
        let source = source.replace("crate::", "super::");
        fs::write(directory.join(&file), source).expect("written");
    }
}

fn changed<'a>(source: &str, name: &str, line: impl Fn(&str) -> Option<&'a str>) -> String {
    let needed = |kind: &str| line(kind).unwrap_or_else(|| panic!("{name}: no `{kind}`"));
    let (old, new) = (needed("old"), needed("new"));
    let start = match line("in") {
        Some(function) => source.find(function).expect("`in` names a function"),
        None => 0,
    };
    let end = match line("in") {
        Some(_) => start + source[start..].find("\n    }\n").expect("a method"),
        None => source.len(),
    };
    let part = &source[start..end];
    let count = part.matches(old).count();
    assert_eq!(count, 1, "{name}: `old` must occur once, not {count} times");
    let part = part.replace(old, new);
    [&source[..start], &part, &source[end..]].concat()
}

fn module(code: &mut String, out: &Path, entry: &Entry) {
    let name = entry["name"];
    writeln!(code, "#[allow(warnings)]\nmod {name} {{").expect("string");
    writeln!(
        code,
        "    pub use reference::{{event, lock_view, mode, watch}};"
    )
    .expect("string");
    for module in MODULES {
        if is_shared(module, entry) {
            writeln!(code, "    pub use reference::{module};").expect("string");
            continue;
        }
        let path = out.join(name).join(module).with_extension("rs");
        writeln!(code, "    #[path = {path:?}]\n    pub mod {module};").expect("string");
    }
    writeln!(code, "    reference::subject_of!(server::Server);\n}}").expect("string");
}

fn row(table: &mut String, entry: &Entry) {
    let name = entry["name"];
    let breaks = entry["breaks"];
    let alone = entry.get("alone") == Some(&"yes");
    writeln!(
        table,
        "    Fault {{ name: {name:?}, breaks: {breaks:?}, alone: {alone}, \
         new: |fresh| Box::new(<{name}::server::Server as Subject>::new(fresh)) }},"
    )
    .expect("string");
}
