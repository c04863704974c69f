//! Small books with stored verdicts, in `host/reference/books`.
//!
//! `stored_books PROGRAM` makes each book again, compares it with the one that is stored, and holds the program
//! `verify` to the lines of `verdicts.txt` (`FILE VENDOR MODE: verdict`) and, for bad calls, of `refused.txt`
//! (`ARGUMENTS: what it says on standard error`). The last line says how many were equal.
//! `stored_books --write FOLDER` writes the books; the lines are written by hand.

#[path = "../tests/books/mod.rs"]
mod books;

use books::stored::stored;
use std::path::{Path, PathBuf};
use std::process::Command;
use std::{env, fs, process};

/// What a line says, standard output and error.
type Says = fn(&str) -> [String; 2];

struct Stored {
    folder: PathBuf,
    program: PathBuf,
}

impl Stored {
    fn read(&self, name: &str) -> Result<Vec<u8>, String> {
        fs::read(self.folder.join(name)).map_err(|error| format!("{name}: {error}"))
    }

    fn books(&self) -> Result<usize, String> {
        for (name, book) in stored() {
            if self.read(name)? != book {
                return Err(format!("{name}: what is stored is not what is made"));
            }
        }
        Ok(stored().len())
    }

    /// Calls the program in the folder as each line of a file says.
    fn lines(&self, file: &str, says: Says) -> Result<usize, String> {
        let text = String::from_utf8(self.read(file)?).map_err(|error| error.to_string())?;
        for line in text.lines() {
            let (call, told) = line.split_once(": ").ok_or(format!("{file}: {line}"))?;
            self.call(call, &says(told))?;
        }
        Ok(text.lines().count())
    }

    fn call(&self, call: &str, expected: &[String; 2]) -> Result<(), String> {
        let words = call.split(' ').filter(|word| *word != "-");
        let mut program = Command::new(&self.program);
        let run = program.args(words).current_dir(&self.folder).output();
        let run = run.map_err(|error| format!("{}: {error}", self.program.display()))?;
        let told = [run.stdout, run.stderr].map(|out| String::from_utf8_lossy(&out).into_owned());
        match told == *expected {
            true => Ok(()),
            false => Err(format!(
                "{call}: verify says {told:?}, stored is {expected:?}"
            )),
        }
    }
}

fn compare(program: &str) -> Result<(), String> {
    let program = fs::canonicalize(program).map_err(|error| format!("{program}: {error}"))?;
    let folder = Path::new(env!("CARGO_MANIFEST_DIR")).join("books");
    let stored = Stored { folder, program };
    let books = stored.books()?;
    let verdicts = stored.lines("verdicts.txt", |told| {
        [told.to_owned() + "\n", String::new()]
    })?;
    let refused = stored.lines("refused.txt", |told| {
        [String::new(), told.to_owned() + "\n"]
    })?;
    println!(
        "{books} books made again, {verdicts} stored verdicts and {refused} refused calls equal"
    );
    Ok(())
}

fn write(folder: &str) -> Result<(), String> {
    for (name, book) in stored() {
        let file = Path::new(folder).join(name);
        fs::write(file, book).map_err(|error| format!("{name}: {error}"))?;
    }
    Ok(())
}

fn main() {
    let arguments: Vec<String> = env::args().skip(1).collect();
    let done = match arguments.iter().map(String::as_str).collect::<Vec<_>>()[..] {
        ["--write", folder] => write(folder),
        [program] => compare(program),
        _ => Err("stored_books PROGRAM | --write FOLDER".into()),
    };
    if let Err(what) = done {
        eprintln!("stored_books: {what}");
        process::exit(1);
    }
}
