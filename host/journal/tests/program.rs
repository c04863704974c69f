//! The program: what it prints, its exit statuses and its messages.

mod common;

use std::fs::{self, File};

use common::{journal, journal_into, three_programs, Folder};
use reference::journal::framing::{entry, trailer};
use reference::journal::{layout, reader, Recorded};
use reference::verifier::judge;
use reference::Fresh;

#[test]
fn help_and_wrong_command_lines() {
    let (status, out, _) = journal(&["--help"]);
    assert!(status == 0 && out.starts_with("usage: journal print FILE"));
    for words in [
        &[][..],
        &["print"],
        &["judge", "x"],
        &["print", "x", "4141"],
    ] {
        let (status, out, told) = journal(words);
        assert_eq!((status, out.as_str()), (2, ""), "{words:?}");
        assert!(told.ends_with("; journal --help says how\n"), "{told}");
    }
}

#[test]
fn files_that_are_no_journals_to_read() {
    let folder = Folder::new();
    let directory = folder.path().to_str().expect("text");
    let missing = format!("{directory}/missing");
    for command in ["print", "readings", "repair"] {
        for (file, status, message) in [
            (missing.as_str(), 3, "no such file"),
            (directory, 4, "a directory, not a journal"),
            ("/proc/self/mem", 5, "cannot be read: "),
        ] {
            let (code, out, told) = journal(&[command, file]);
            assert_eq!((code, out.as_str()), (status, ""), "{command} {file}");
            let expected = format!("journal: {file}: {message}");
            assert!(told.starts_with(&expected), "{told}");
        }
    }
}

#[test]
fn every_entry_is_a_line() {
    let folder = Folder::new();
    let file = folder.file("book", &three_programs());
    let (status, out, told) = journal(&["print", &file]);
    assert_eq!((status, told.as_str()), (0, ""));
    assert_eq!(out, include_str!("three_programs.print.txt"));
}

#[test]
fn readings_of_an_accepted_book() {
    let folder = Folder::new();
    let file = folder.file("book", &three_programs());
    let (status, out, told) = journal(&["readings", &file]);
    assert_eq!((status, told.as_str()), (0, ""));
    assert_eq!(out, include_str!("three_programs.readings.txt"));
    let (status, stated, _) = journal(&["readings", &file, "4141", "synchronized"]);
    assert_eq!(status, 0);
    assert_eq!(stated, out.replace("as the journal says", "as stated"));
}

#[test]
fn an_empty_book_is_accepted() {
    let folder = Folder::new();
    let file = folder.file("book", &trailer(0, 0));
    let (status, out, _) = journal(&["readings", &file]);
    let server = "server: vendor not told, mode not told, as the journal says";
    assert_eq!(status, 0);
    assert_eq!(
        out,
        format!("accepted: 0 entries\n{server}\n\nno readings\n")
    );
    let (status, out, _) = journal(&["print", &file]);
    assert_eq!(
        (status, out),
        (0, format!("{server}\naccepted: 0 entries\n"))
    );
}

/// Books with one fault each, and the verdict.
fn damaged() -> Vec<(Vec<u8>, &'static str)> {
    let good = three_programs();
    let places: Vec<usize> = reader::entries(&good).map(|found| found.at).collect();
    let (at, next) = (places[5], places[6]);
    let changed = |place: usize| {
        let mut book = good.clone();
        book[place] ^= 0x40;
        book
    };
    let with = |body: &[u8]| [&good[..at], &entry(body), &good[next..]].concat();
    let other = layout::body(&Recorded::Cut { connection: 9 }, b"");
    vec![
        (changed(at), "not accepted: entry 5, length\n"),
        (changed(next - 8), "not accepted: entry 5, distance\n"),
        (changed(next - 1), "not accepted: entry 5, sum\n"),
        (with(b"\x0a"), "not accepted: entry 5, layout\n"),
        (with(&other), "not accepted: entry 5, parcels\n"),
        (
            changed(good.len() - 1),
            "not accepted: entry 48, closing trailer\n",
        ),
        (
            good[..good.len() - 12].to_vec(),
            "not accepted: entry 48, length\n",
        ),
        (Vec::new(), "not accepted: entry 0, length\n"),
    ]
}

/// The book of an accepted journal cut short, and with bytes behind it.
fn ended_elsewhere() -> Vec<(Vec<u8>, &'static str)> {
    let good = three_programs();
    let places: Vec<usize> = reader::entries(&good).map(|found| found.at).collect();
    let first = |end: usize| good[..end].to_vec();
    let end = good.len();
    vec![
        (first(places[5]), "not accepted: entry 5, length\n"),
        (first(places[5] + 2), "not accepted: entry 5, length\n"),
        (first(places[6] - 1), "not accepted: entry 5, length\n"),
        (first(end - 10), "not accepted: entry 48, length\n"),
        (first(end - 8), "not accepted: entry 48, closing trailer\n"),
        (first(end - 1), "not accepted: entry 48, closing trailer\n"),
        (
            [&good[..], b"\0"].concat(),
            "not accepted: entry 48, closing trailer\n",
        ),
        (good.repeat(2), "not accepted: entry 48, closing trailer\n"),
    ]
}

#[test]
fn a_book_that_is_not_accepted_is_printed_as_nothing_else() {
    let folder = Folder::new();
    for (book, verdict) in damaged().into_iter().chain(ended_elsewhere()) {
        let file = folder.file("book", &book);
        for server in [&[][..], &["4141", "synchronized"]] {
            let told = journal(&[&["readings", &file], server].concat());
            assert_eq!(told, (1, verdict.into(), String::new()));
        }
        let (status, out, _) = journal(&["print", &file]);
        assert!(status == 1 && out.ends_with(verdict), "{out}");
    }
}

/// The entries that tell mode and vendor number are not what another server would have sent.
#[test]
fn another_server_s_book_is_not_accepted() {
    let folder = Folder::new();
    let file = folder.file("book", &three_programs());
    for (server, verdict) in [
        (["4142", "synchronized"], "not accepted: entry 3, parcels\n"),
        (["4141", "overlap"], "not accepted: entry 1, parcels\n"),
    ] {
        let told = journal(&[&["readings", &file], &server[..]].concat());
        assert_eq!(told, (1, verdict.into(), String::new()));
    }
}

#[test]
fn the_verdict_stands_first_in_verify_s_words() {
    let folder = Folder::new();
    let book = three_programs();
    let file = folder.file("book", &book);
    let (_, out, _) = journal(&["readings", &file, "4141", "synchronized"]);
    let verdict = judge(Fresh::BENCH, &book).to_string();
    assert_eq!(out.lines().next(), Some(verdict.as_str()));
    assert_eq!(verdict, "accepted: 48 entries");
}

#[test]
fn from_a_wrong_entry_on_nothing_is_replayed() {
    let folder = Folder::new();
    let (book, _) = damaged().swap_remove(4);
    let file = folder.file("book", &book);
    let (_, out, _) = journal(&["print", &file]);
    let lines: Vec<&str> = out.lines().collect();
    assert!(lines[4].ends_with("connection 2 opened; no locks"));
    assert_eq!(
        lines[5],
        "entry 5 is wrong: parcels; not replayed from here on"
    );
    assert!(lines[6].ends_with("connection 9 cut"));
    assert!(lines[8].ends_with(
        "connection 3 AsyncInitialize, 16 bytes shown; AsyncInitializeResponse 0 to connection 3"
    ));
    assert_eq!(lines.len(), 48 + 3);
}

#[test]
fn a_book_cut_short_anywhere_is_repaired() {
    let folder = Folder::new();
    let good = three_programs();
    let ends: Vec<usize> = reader::entries(&good).map(|found| found.next).collect();
    for cut in (0..good.len()).step_by(53).chain([good.len() - 1]) {
        let file = folder.file("book", &good[..cut]);
        let to = format!("{file}.repaired");
        let whole = ends.iter().filter(|end| **end <= cut).count();
        let (status, out, told) = journal(&["repair", &file]);
        assert_eq!((status, told.as_str()), (0, ""), "cut at {cut}");
        assert!(
            out.starts_with(&format!("{to}: {whole} entries, ")),
            "{out}"
        );
        let (status, out, _) = journal(&["readings", &to]);
        assert!(status == 0 && out.starts_with(&format!("accepted: {whole} entries\n")));
        assert_eq!(fs::read(&file).expect("it is there"), good[..cut]);
        fs::remove_file(&to).expect("made");
    }
}

/// Books that are not closed as they should be, and what repair says of each.
fn unclosed() -> Vec<(Vec<u8>, &'static str)> {
    let good = three_programs();
    let changed = |place: usize| {
        let mut book = good.clone();
        book[place] ^= 1;
        book
    };
    let entries = &good[..good.len() - 12];
    let zeros = [entries, &[0; 64]].concat();
    vec![
        (entries.to_vec(), "48 entries, nothing left out"),
        (
            good[..good.len() - 3].to_vec(),
            "48 entries, 9 bytes behind them left out: cut short",
        ),
        (
            changed(good.len() - 1),
            "48 entries, 12 bytes behind them left out: wrong closing trailer",
        ),
        (
            zeros,
            "48 entries, 64 bytes behind them left out: wrong distance",
        ),
        (changed(30), "left out: wrong sum"),
        (Vec::new(), "0 entries, nothing left out"),
    ]
}

#[test]
fn repair_says_what_it_left_out() {
    let folder = Folder::new();
    for (place, (book, says)) in unclosed().into_iter().enumerate() {
        let from = folder.file(&place.to_string(), &book);
        let to = format!("{from}.closed");
        let (status, out, _) = journal(&["repair", &from, &to]);
        assert_eq!(status, 0, "{says}");
        assert!(out.starts_with(&format!("{to}: ")), "{out}");
        assert!(out.ends_with(&format!("{says}\n")), "{out}");
        assert_eq!(journal(&["print", &to]).0, 0, "{says}");
    }
}

#[test]
fn repair_makes_nothing_of_what_it_should_not() {
    let folder = Folder::new();
    let good = folder.file("good", &three_programs());
    let (status, out, told) = journal(&["repair", &good]);
    assert_eq!((status, out.as_str()), (6, ""));
    assert!(told.ends_with("closed already, 48 entries: nothing to repair\n"));
    let text = folder.file("text", b"Dear Sirs, the journal is lost.");
    let (status, _, told) = journal(&["repair", &text]);
    assert!(status == 1 && told.ends_with("no journal, it does not begin with an entry\n"));
    assert_eq!(fs::read_dir(folder.path()).expect("there").count(), 2);
    let cut = folder.file("cut", &three_programs()[..100]);
    let (status, _, told) = journal(&["repair", &cut, &good]);
    assert!(
        status == 7 && told.contains("cannot be written: "),
        "{told}"
    );
    assert_eq!(fs::read(&good).expect("there"), three_programs());
}

#[test]
fn a_result_that_cannot_be_printed_is_told() {
    let folder = Folder::new();
    let file = folder.file("book", &three_programs());
    for command in ["print", "readings"] {
        let full = File::options().write(true).open("/dev/full");
        let (status, _, told) = journal_into(&[command, &file], full.expect("Linux has it"));
        assert_eq!(status, 7);
        assert!(told.starts_with("journal: standard output: "), "{told}");
    }
}
