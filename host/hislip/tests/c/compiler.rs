//! Compilers for the tests of the C interface.

use std::env;
use std::fs;
use std::path::{Path, PathBuf};
use std::process::Command;

pub fn root() -> PathBuf {
    Path::new(env!("CARGO_MANIFEST_DIR")).join("../..")
}

/// A place for files of a test.
pub fn scratch(name: &str) -> PathBuf {
    Path::new(env!("CARGO_TARGET_TMPDIR")).join(name)
}

const STRICT: [&str; 5] = ["-Wall", "-Wextra", "-Wpedantic", "-Werror", "-O1"];

/// A language, with the compilers that must take it.
pub struct Language {
    pub standard: &'static str,
    pub extension: &'static str,
    compilers: [&'static str; 2],
}

pub const C99: Language = Language {
    standard: "-std=c99",
    extension: "c",
    compilers: ["gcc", "clang"],
};

pub const CPP11: Language = Language {
    standard: "-std=c++11",
    extension: "cpp",
    compilers: ["g++", "clang++"],
};

/// The C compiler, every warning an error.
pub fn strict() -> Command {
    let name = env::var("CC").unwrap_or_else(|_| "cc".into());
    with(&name, C99.standard)
}

fn with(compiler: &str, standard: &str) -> Command {
    let mut command = Command::new(compiler);
    command.arg(standard).args(STRICT);
    command.arg("-I").arg(root().join("include"));
    command
}

impl Language {
    /// The compilers that this machine has.
    pub fn compilers(&self) -> Vec<&'static str> {
        let here = |name: &&str| Command::new(name).arg("--version").output().is_ok();
        let found: Vec<_> = self.compilers.into_iter().filter(here).collect();
        if found.len() < self.compilers.len() {
            let wanted = self.compilers;
            eprintln!("not tried: only {found:?} of {wanted:?} are on this machine");
        }
        found
    }

    /// This compiler, every warning an error.
    pub fn strict(&self, compiler: &str) -> Command {
        with(compiler, self.standard)
    }

    /// True if a source of this text compiles without a warning, by this compiler.
    pub fn compiles(&self, compiler: &str, name: &str, text: &str) -> bool {
        let source = scratch(&format!("{name}-{compiler}")).with_extension(self.extension);
        fs::write(&source, text).expect("written");
        let mut command = self.strict(compiler);
        command.arg("-c").arg(&source);
        command.arg("-o").arg(source.with_extension("o"));
        command.output().expect("a compiler").status.success()
    }
}

/// Compiles a program, runs it and returns what it prints. `link` is what goes behind the source.
pub fn run(mut compile: Command, source: &Path, link: &[&str], program: &Path) -> String {
    compile.arg(source).args(link).arg("-o").arg(program);
    let output = compile.output().expect("a compiler");
    let said = String::from_utf8_lossy(&output.stderr);
    assert!(output.status.success(), "{}: {said}", source.display());
    let run = Command::new(program).output().expect("it starts");
    let text = String::from_utf8_lossy(&run.stdout).into_owned();
    assert!(run.status.success(), "{text}");
    text
}
