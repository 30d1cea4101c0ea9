//! The commands `vectors`, `moved`, `letter`, `generate` and `faults`: their status and what they print.

use std::fs;
use std::path::PathBuf;
use std::process::Command;

const PROGRAM: &str = env!("CARGO_BIN_EXE_reference");

const TABLE: &str = "\
count:     m 44 02000101  > 0 51 0000ffbe
its items: i 0 0 1 16 3   > 0 47 ffbe000001
first:     d              > 1 fly 0
";

/// A file for one test, removed at its end.
struct Scratch(PathBuf);

impl Scratch {
    fn new(name: &str, text: &str) -> Scratch {
        let file = format!("reference-commands-{}-{name}", std::process::id());
        let path = std::env::temp_dir().join(file);
        fs::write(&path, text).unwrap();
        Scratch(path)
    }

    fn name(&self) -> &str {
        self.0.to_str().unwrap()
    }
}

impl Drop for Scratch {
    fn drop(&mut self) {
        let _ = fs::remove_file(&self.0);
    }
}

/// The status of a run, and what it prints.
fn run(arguments: &[&str]) -> (Option<i32>, String, String) {
    let output = Command::new(PROGRAM).args(arguments).output().unwrap();
    let text = |bytes: Vec<u8>| String::from_utf8(bytes).unwrap();
    (output.status.code(), text(output.stdout), text(output.stderr))
}

#[test]
fn a_table_that_holds() {
    let (table, script) = (Scratch::new("good", TABLE), Scratch::new("script", ""));
    let (status, out, _) = run(&["vectors", "--table", table.name(), "--out", script.name()]);
    assert_eq!(status, Some(0));
    assert_eq!(out, "vectors: 3 cases, 14 lines of the reference alone\n");
    let script = fs::File::open(&script.0).unwrap();
    let played = Command::new(PROGRAM).arg("play").stdin(script).output().unwrap();
    let lines = String::from_utf8(played.stdout).unwrap();
    assert_eq!(lines.lines().count(), 14);
    assert!(
        lines.starts_with("m 0 51 4 0000FFBE\nm 0 51 4 0100FFBE\nm 0 47 5 FFBE000001\nd 1 fly 0\n")
    );
}

#[test]
fn a_table_that_does_not_hold() {
    let table = Scratch::new("other", &TABLE.replace("fly 0", "fly 1"));
    let (status, out, _) = run(&["vectors", "--table", table.name()]);
    assert_eq!(status, Some(1));
    let shown = "line 3: first\n  record:    DONE store 5632\n  wanted:    d 1 fly 1\n  reference: d 1 fly 0\n";
    assert!(out.contains(shown), "{out}");
    assert!(out.ends_with("vectors: 1 of 3 cases differ\n"), "{out}");
}

/// Without arguments the program prints no line.
#[test]
fn a_console_that_prints_nothing() {
    let table = Scratch::new("silent", TABLE);
    let (status, out, _) = run(&["vectors", "--table", table.name(), "--console", PROGRAM]);
    assert_eq!(status, Some(1));
    assert!(out.contains("line 1: count\n"), "{out}");
    assert!(out.contains("  reference: m 0 51 4 0000FFBE\n  console:   no line\n"), "{out}");
    assert!(out.ends_with("vectors: 3 of 3 cases differ\n"), "{out}");
}

#[test]
fn what_cannot_be_played() {
    let table = Scratch::new("unread", &TABLE.replace("0 51 ", "0 51 0"));
    let (status, out, error) = run(&["vectors", "--table", table.name()]);
    assert_eq!((status, out.as_str()), (Some(2), ""));
    assert!(error.contains("line 1: 00000ffbe: not at most 64 bytes in hex"), "{error}");
    let good = Scratch::new("good-too", TABLE);
    let arguments = ["vectors", "--table", good.name(), "--console", "no such program"];
    assert_eq!(run(&arguments).0, Some(2));
    assert_eq!(run(&["vectors", "--table", "no such table"]).0, Some(2));
}

const BASE: [&str; 5] =
    ["moved", "--script", "tests/moved/base.bin", "--lines", "tests/moved/base.exp"];

#[test]
fn moved_plans() {
    let (status, out, _) = run(&BASE);
    assert_eq!(status, Some(0));
    assert_eq!(out, "moved: 152 lines as before the move\n");
    let (status, out, _) = run(&[&BASE[..], &["--console", PROGRAM]].concat());
    assert_eq!(status, Some(1));
    let shown =
        "the console answers otherwise, line 1\n  before the move v 1\n  after it no line\n";
    assert_eq!(out, format!("moved: {shown}"));
    assert_eq!(run(&[&BASE[..], &["--console", "no such program"]].concat()).0, Some(2));
    assert_eq!(run(&BASE[..3]).0, Some(2));
}

#[test]
fn a_story_of_a_console_that_prints_nothing() {
    let story = Scratch::new("story", "It asks:\n>5 timer flight\n");
    let (status, out, _) = run(&["letter", "--story", story.name(), "--console", PROGRAM]);
    assert_eq!(status, Some(1));
    assert!(out.starts_with("letter: the console and the reference differ: TIMER kind 0"), "{out}");
    assert!(out.ends_with("  printed \n  wanted  t 1 0 0 -\n"), "{out}");
}

#[test]
fn a_story_that_cannot_be_played() {
    let story = Scratch::new("unread-story", "It asks:\n>5 timer flight soon\n");
    let (status, out, error) = run(&["letter", "--story", story.name(), "--console", PROGRAM]);
    assert_eq!((status, out.as_str()), (Some(2), ""));
    assert!(error.contains("line 2: soon: nothing more is asked for"), "{error}");
    let arguments = ["letter", "--story", "no such story", "--console", PROGRAM];
    assert_eq!(run(&arguments).0, Some(2));
}

#[test]
fn lists_with_and_without_home() {
    let list = |options: &[&str]| {
        let script = Scratch::new(&format!("list{}", options.len()), "");
        let asked = ["generate", "--seed", "3", "--calls", "50", "--out", script.name()];
        assert_eq!(run(&[&asked[..], options].concat()).0, Some(0));
        fs::read(script.name()).unwrap()
    };
    let setting = |script: Vec<u8>| (script[0], script[5]);
    assert_eq!([list(&[]), list(&["--home"])].map(setting), [(5, 0), (5, 1)]);
    let (status, _, error) = run(&["generate", "--seed", "3", "--home", "--calls"]);
    assert_eq!(status, Some(2));
    assert!(error.starts_with("reference play"));
}

#[test]
fn faults_name_their_lists() {
    let (status, out, _) = run(&["faults"]);
    assert_eq!(status, Some(0));
    let list_of = |name| {
        let mut faults = out.lines().map(|line| line.split_whitespace());
        faults.find(|words| words.clone().next() == Some(name)).and_then(|mut words| words.nth(1))
    };
    assert_eq!(list_of("expiry-249"), Some("-"));
    assert_eq!(list_of("home0-after-frame"), Some("--home"));
}
