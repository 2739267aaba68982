//! Tests of the comparison that `bench/run-commands` makes. Both programs are scripts that run the
//! plain program, and the second one does one thing differently.

use std::fs;
use std::path::PathBuf;
use std::process::{Command, Output};

const EXTRACT: &str = env!("CARGO_BIN_EXE_extract");

/// A new folder, which is removed in the end.
struct Folder(PathBuf);

impl Folder {
    fn new(name: &str) -> Folder {
        let path = std::env::temp_dir().join(format!("bench-{}-{name}", std::process::id()));
        fs::create_dir(&path).unwrap();
        Folder(path)
    }

    fn path(&self, name: &str) -> String {
        self.0.join(name).to_str().unwrap().to_string()
    }

    /// A program that does what these lines of a script say and then runs the plain program, unless
    /// they end it. Another process writes the program's file: a file that this process writes may
    /// be open in a program that another test starts, and then it can't be run.
    fn program(&self, name: &str, lines: &str) -> String {
        let (path, script) = (self.path(name), self.path("script"));
        fs::write(&script, format!("#!/bin/sh\n{lines}\nexec {EXTRACT} plain \"$@\"\n")).unwrap();
        assert!(Command::new("install").args(["-m", "755", &script, &path]).status().unwrap().success());
        path
    }
}

impl Drop for Folder {
    fn drop(&mut self) {
        fs::remove_dir_all(&self.0).unwrap();
    }
}

fn extract(words: &[&str]) -> Output {
    Command::new(EXTRACT).args(words).output().unwrap()
}

/// The exit status, the tables and the errors of the comparison with a program that first does what
/// these lines say.
fn compared(name: &str, lines: &str, words: &[&str]) -> (Option<i32>, String, String) {
    let folder = Folder::new(name);
    let [file, update] = ["full.cif", "update.cif"].map(|name| folder.path(name));
    assert!(extract(&["full", "300", "1", &file]).status.success());
    assert!(extract(&["update", "300", "1", "7", "3", &update]).status.success());
    let (docker, peer) = (folder.program("docker", ""), folder.program("peer", lines));
    let output = extract(&[&["commands", &docker, &file, &update, &folder.path(""), "2", &peer], words].concat());
    let text = |bytes| String::from_utf8(bytes).unwrap();
    (output.status.code(), text(output.stdout), text(output.stderr))
}

/// How many rows the two tables have for a command.
fn rows(tables: &str, name: &str) -> usize {
    tables.lines().filter(|line| line.starts_with(&format!("| {name} |"))).count()
}

#[test]
fn equal_answers() {
    let (status, tables, errors) = compared("equal", "", &[]);
    assert_eq!((status, &*errors), (Some(0), ""));
    let names = ["check FILE", "day FILE TIPLOC DATE", "migrate", "print STATE TIPLOC DATE", "files STATE"];
    for name in names {
        assert_eq!(rows(&tables, &format!("`{name}`")), 2, "{tables}");
    }
    assert_eq!(tables.lines().filter(|line| line.starts_with("| `")).count(), 22, "{tables}");
}

#[test]
fn chosen_commands() {
    let (status, tables, errors) = compared("chosen", "", &["migrate", "the full state"]);
    assert_eq!((status, &*errors), (Some(0), ""));
    for name in ["`migrate`", "`merge` of the full state into the update's"] {
        assert_eq!(rows(&tables, name), 2, "{tables}");
    }
    assert_eq!(tables.lines().filter(|line| line.starts_with("| `")).count(), 4, "{tables}");
}

#[test]
fn another_text() {
    let (status, tables, errors) = compared("text", "[ $1 = files ] && echo more", &[]);
    assert_eq!(status, Some(1));
    assert_eq!(errors, "bench: `files STATE`: the two programs print different texts\n");
    assert_eq!((rows(&tables, "`files STATE`"), rows(&tables, "`check FILE`")), (0, 2), "{tables}");
}

#[test]
fn another_state() {
    let lines = format!("if [ $1 = migrate ]; then {EXTRACT} plain \"$@\" && printf x >>\"$2\"; exit; fi");
    let (status, tables, errors) = compared("state", &lines, &[]);
    assert_eq!(status, Some(1));
    assert_eq!(errors, "bench: `migrate`: the two programs leave different bytes in STATE\n");
    assert_eq!((rows(&tables, "`migrate`"), rows(&tables, "`horizon` of that day")), (0, 2), "{tables}");
}

#[test]
fn another_status() {
    let (status, _, errors) = compared("status", "[ $1 = horizon ] && echo no >&2 && exit 3", &["horizon", "files"]);
    assert_eq!(status, Some(1));
    assert_eq!(errors, "bench: `horizon` of that day: the plain program ended with 3: no\n");
}
