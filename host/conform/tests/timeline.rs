//! The list that `docs/timeline.svg` shows: the library gives its answers, and the picture is its own.

use std::fs;

use conform::bout::BENCH;
use conform::command::LIBRARY;
use conform::watch::Watch;
use record::tree::root;
use timeline::list::{line, read, Entry};

fn file(name: &str) -> String {
    fs::read_to_string(root().join(name)).expect(name)
}

fn list() -> Vec<Entry> {
    read(&file("host/timeline/lists/three_programs.txt")).expect("well formed")
}

#[test]
fn the_library_gives_the_answers_of_the_list() {
    let mut watch = Watch::new(&LIBRARY, BENCH);
    for entry in list() {
        let reply = watch.event(&entry.event).expect("no complaint");
        let (_, output) = watch.log.last();
        let told = Entry {
            event: entry.event.clone(),
            reply,
            output: output.to_vec(),
        };
        assert_eq!(line(&told), line(&entry));
    }
}

#[test]
fn the_picture_in_docs_is_that_of_the_list() {
    let drawn = timeline::draw(&list());
    assert!(
        drawn == file("docs/timeline.svg"),
        "draw it again: make timeline"
    );
}
