//! The program itself: its outputs, its exit statuses and what it leaves alone.

use std::fs;
use std::path::{Path, PathBuf};
use std::process::{Command, Output};

/// A folder of its own for one test, gone when the test ends.
struct Folder(PathBuf);

impl Folder {
    fn new(name: &str) -> Folder {
        let folder = PathBuf::from(env!("CARGO_TARGET_TMPDIR")).join(name);
        let _ = fs::remove_dir_all(&folder);
        fs::create_dir_all(&folder).expect("a folder for the test");
        Folder(folder)
    }

    fn put(&self, name: &str, content: &[u8]) -> PathBuf {
        let path = self.0.join(name);
        fs::write(&path, content).expect("a file for the test");
        path
    }
}

impl Drop for Folder {
    fn drop(&mut self) {
        let _ = fs::remove_dir_all(&self.0);
    }
}

fn runtext(verb: &str, files: &[&Path]) -> Output {
    Command::new(env!("CARGO_BIN_EXE_runtext"))
        .arg(verb)
        .args(files)
        .output()
        .expect("the program starts")
}

fn said(bytes: &[u8]) -> String {
    String::from_utf8(bytes.to_vec()).expect("text")
}

#[test]
fn a_text_becomes_a_file_and_text_again() {
    let folder = Folder::new("there-and-back");
    let text = folder.put("a.txt", b"memory 01 02\nin\nread 024h/4\n");
    let file = folder.0.join("a.run");
    assert!(runtext("to-file", &[&text, &file]).status.success());
    let output = runtext("to-text", &[&file]);
    let again = runtext::to_file(&said(&output.stdout)).expect("its own text");
    assert_eq!(reference::encode(&again), fs::read(&file).unwrap());
}

#[test]
fn a_wrong_text_overwrites_nothing() {
    let folder = Folder::new("wrong-text");
    let text = folder.put("a.txt", b"in\nread 024h\n");
    let file = folder.put("a.run", b"old");
    let output = runtext("to-file", &[&text, &file]);
    assert_eq!(output.status.code(), Some(2));
    assert!(said(&output.stderr).contains("line 2: expected OFFSET/WIDTH"));
    assert_eq!(fs::read(&file).unwrap(), b"old");
    assert_eq!(runtext("to-file", &[&text, &text]).status.code(), Some(2));
}

#[test]
fn the_text_itself_is_never_overwritten() {
    let folder = Folder::new("itself");
    let text = folder.put("a.txt", b"in\n");
    assert_eq!(runtext("to-file", &[&text, &text]).status.code(), Some(2));
    assert_eq!(fs::read(&text).unwrap(), b"in\n");
}

#[test]
fn missing_and_bad_files_are_said_to_be_so() {
    let folder = Folder::new("missing-and-bad");
    let missing = folder.0.join("none.run");
    let bad = folder.put("bad.run", &[1, 2, 3]);
    for verb in ["to-text", "show"] {
        let output = runtext(verb, &[&missing]);
        assert_eq!(output.status.code(), Some(2));
        assert!(said(&output.stderr).contains("cannot read"));
        let output = runtext(verb, &[&bad]);
        assert_eq!(output.status.code(), Some(2));
        assert!(said(&output.stderr).contains("bad file: its counts"));
    }
    let nowhere = folder.0.join("none").join("a.run");
    let text = folder.put("a.txt", b"in\n");
    let output = runtext("to-file", &[&text, &nowhere]);
    assert_eq!(output.status.code(), Some(2));
    assert!(said(&output.stderr).contains("cannot write"));
}

#[test]
fn show_finds_the_first_other_line() {
    let folder = Folder::new("show");
    let run = runtext::to_file("in\nread 024h/4\n").unwrap();
    let bytes = reference::encode(&run);
    let file = folder.put("a.run", &bytes);
    let right = reference::run(&bytes);
    let expected = folder.put("a.out", right.as_bytes());
    let output = runtext("show", &[&file, &expected]);
    assert!(output.status.success());
    assert!(said(&output.stdout).ends_with("as expected\n"));
    let other = folder.put("b.out", right.replace("\n1 0 ", "\n1 7 ").as_bytes());
    let output = runtext("show", &[&file, &other]);
    assert_eq!(output.status.code(), Some(1));
    assert!(said(&output.stdout).contains("first difference at step 1\n"));
}

#[test]
fn wrong_calls_get_the_usage() {
    for (verb, names) in [("to-file", 1), ("to-text", 2), ("fold", 1), ("show", 0)] {
        let names = vec![Path::new("a"); names];
        let output = runtext(verb, &names);
        assert_eq!(output.status.code(), Some(2));
        assert!(said(&output.stderr).starts_with("usage:"));
    }
}
