//! `make install` into a folder of its own, and the C example compiled by pkg-config's words.

use std::path::Path;
use std::process::Command;

use crate::compiler::{root, run, scratch};

fn make(target: &str, prefix: &Path) {
    let mut make = Command::new("make");
    make.arg("-s").arg("-C").arg(root()).arg(target);
    make.arg(format!("PREFIX={}", prefix.display()));
    make.arg(concat!("ARCHIVE=", env!("HISLIP_ARCHIVE")));
    // Words of a `make` that runs this test are not for this one.
    make.env_remove("MAKEFLAGS").env_remove("MFLAGS");
    assert!(make.status().expect("make").success(), "make {target}");
}

/// pkg-config's words about the installed library; none if the machine has no pkg-config.
fn pkg_config(prefix: &Path, question: &str) -> Option<String> {
    let mut command = Command::new("pkg-config");
    command.args([question, "hislip"]);
    command.env("PKG_CONFIG_PATH", prefix.join("lib/pkgconfig"));
    let output = command.output().ok()?;
    assert!(output.status.success(), "pkg-config {question}");
    Some(String::from_utf8_lossy(&output.stdout).trim().to_string())
}

#[test]
fn the_example_compiles_by_pkg_configs_words() {
    let prefix = scratch("prefix");
    make("install-files", &prefix);
    let Some(version) = pkg_config(&prefix, "--modversion") else {
        eprintln!("not tried: no pkg-config on this machine");
        return;
    };
    assert_eq!(version, env!("CARGO_PKG_VERSION"));
    let mut compile = Command::new("cc");
    let flags = pkg_config(&prefix, "--cflags").expect("asked before");
    compile.arg("-std=c99").args(flags.split_whitespace());
    let libraries = pkg_config(&prefix, "--libs").expect("asked before");
    let libraries: Vec<&str> = libraries.split_whitespace().collect();
    let source = root().join("host/c/example.c");
    let text = run(compile, &source, &libraries, &scratch("installed"));
    assert!(text.ends_with("all as expected\n"), "{text}");
    make("uninstall", &prefix);
    assert!(!prefix.join("lib/libhislip.a").exists());
}
