//! The program itself on bad input: one plain line on standard error, and an exit status that is not 0.

use std::fs::{self, File};
use std::io::Write;
use std::path::PathBuf;
use std::process::{Command, Output, Stdio};

const FINALE: &str = concat!(env!("CARGO_MANIFEST_DIR"), "/examples/finale.txt");

fn card() -> Command {
    let mut command = Command::new(env!("CARGO_BIN_EXE_card"));
    command.env_remove("COLUMNS").env_remove("NO_COLOR").stdin(Stdio::null());
    command
}

fn run(arguments: &[&str]) -> Output {
    card().args(arguments).output().expect("the program runs")
}

/// A folder of the test's own, which it removes at the end.
struct Folder(PathBuf);

impl Folder {
    fn new(name: &str) -> Folder {
        let path = std::env::temp_dir().join(format!("card-{name}-{}", std::process::id()));
        fs::create_dir_all(&path).expect("a folder for the test");
        Folder(path)
    }

    fn file(&self, name: &str) -> String {
        self.0.join(name).to_str().expect("a path in UTF-8").to_string()
    }

    /// The card of the example.
    fn finale(&self) -> String {
        let path = self.file("finale.card");
        assert!(run(&["make", FINALE, "-o", &path]).status.success());
        path
    }
}

impl Drop for Folder {
    fn drop(&mut self) {
        let _ = fs::remove_dir_all(&self.0);
    }
}

fn refuses(output: &Output, status: i32, words: &str) {
    let errors = String::from_utf8(output.stderr.clone()).expect("ASCII");
    assert_eq!(output.status.code(), Some(status), "{errors}");
    assert_eq!(errors.matches('\n').count(), 1, "{errors}");
    assert!(errors.ends_with('\n') && errors.is_ascii(), "{errors}");
    assert!(errors.contains(words), "{errors}");
}

#[test]
fn files() {
    let folder = Folder::new("files");
    let finale = folder.finale();
    let empty = folder.file("empty");
    File::create(&empty).expect("an empty file");
    let nowhere = folder.file("nowhere");
    let here = folder.0.to_str().expect("a path in UTF-8");
    for command in ["show", "make", "shorten", "html"] {
        refuses(&run(&[command, &nowhere]), 1, "can't read");
        refuses(&run(&[command, here]), 1, "can't read");
        refuses(&run(&[command]), 2, "which file?");
        refuses(&run(&[command, &finale, &finale]), 2, "only one file");
        refuses(&run(&[command, &finale, "--colour"]), 2, "there is no option --colour here");
        if command == "make" {
            refuses(&run(&[command, &empty]), 1, "empty:1:1: a module, ");
            refuses(&run(&[command, &finale]), 1, "this is no text");
            refuses(&run(&[command, "/dev/zero"]), 1, "more than 1048576 bytes");
        } else {
            refuses(&run(&[command, &empty]), 1, "refused, short record (4) at byte 0: ");
            refuses(&run(&[command, "-"]), 1, "standard input: refused, short record (4) at byte 0: ");
            refuses(&run(&[command, FINALE]), 1, "this is text");
            refuses(&run(&[command, "/dev/zero"]), 1, "refused, long card (2): ");
        }
    }
}

/// Where permissions count for nothing, as they do for the superuser, there is nothing to see.
#[cfg(unix)]
#[test]
fn unreadable() {
    use std::os::unix::fs::PermissionsExt;
    let folder = Folder::new("unreadable");
    let finale = folder.finale();
    fs::set_permissions(&finale, fs::Permissions::from_mode(0o000)).expect("the test's own file");
    if File::open(&finale).is_err() {
        refuses(&run(&["show", &finale]), 1, "can't read");
    }
}

#[test]
fn options() {
    let folder = Folder::new("options");
    let finale = folder.finale();
    refuses(&run(&["sow", &finale]), 2, "there is no command sow");
    for command in ["shorten", "html"] {
        refuses(&run(&[command, &finale, "--root"]), 2, "--root wants a value");
        for root in ["", "a", "::a b", "crate::", "::a::mod", "Self::\"", "crate::a,", "crate//a", "crate //"]
        {
            refuses(&run(&[command, &finale, "--root", root]), 1, "is no path");
        }
        for root in ["::a::\"\"", "::a::\"!\"", "::a::b::c::d::e::f::g::h"] {
            refuses(&run(&[command, &finale, "--root", root]), 1, "refused, bad root (3): ");
        }
    }
    refuses(&run(&["make", FINALE, "-o"]), 2, "-o wants a value");
    refuses(&run(&["show", &finale, "-o", "x"]), 2, "there is no option -o here");
    refuses(&run(&["shorten", &finale, "--color", "blue"]), 2, "--color is auto, always or never");
}

#[test]
fn outputs() {
    let folder = Folder::new("outputs");
    let finale = folder.finale();
    let here = folder.0.to_str().expect("a path in UTF-8");
    for (command, file) in [("make", FINALE), ("shorten", &finale), ("html", &finale)] {
        refuses(&run(&[command, file, "-o", here]), 1, "can't write");
        refuses(&run(&[command, file, "-o", &folder.file("no/where")]), 1, "can't write");
    }
    let out = folder.file("out");
    assert!(run(&["html", &finale, "-o", &out]).status.success());
    assert!(fs::read(&out).expect("the page").starts_with(b"<!DOCTYPE html>"));
    let shortened = run(&["shorten", &finale, "-o", &out]);
    assert!(shortened.status.success() && shortened.stdout.starts_with(b"before, "));
    assert_eq!(run(&["shorten", &finale, "-o", "-"]).stdout, fs::read(&out).expect("the card"));
    assert!(run(&["show", &out]).status.success());
}

#[test]
fn closed_pipes() {
    let folder = Folder::new("pipes");
    let finale = folder.finale();
    for (command, file) in
        [("show", &finale), ("make", &FINALE.to_string()), ("shorten", &finale), ("html", &finale)]
    {
        let mut child = card()
            .args([command, "-"])
            .stdin(Stdio::piped())
            .stdout(Stdio::piped())
            .stderr(Stdio::piped())
            .spawn()
            .expect("the program runs");
        // Nothing is written before everything is read.
        drop(child.stdout.take());
        let mut input = child.stdin.take().expect("its standard input");
        input.write_all(&fs::read(file).expect("the file")).expect("it reads");
        drop(input);
        refuses(&child.wait_with_output().expect("it ends"), 1, "can't write standard output");
    }
}

#[test]
fn usage() {
    for arguments in [&[][..], &["--help"], &["-h"], &["help"]] {
        let output = run(arguments);
        assert!(output.status.success() && output.stderr.is_empty());
        assert!(output.stdout.starts_with(b"card show FILE"));
    }
}

#[test]
fn colors_and_width() {
    let folder = Folder::new("colors");
    let finale = folder.finale();
    let tinted = |command: &mut Command| command.output().expect("the program runs").stdout.contains(&0x1b);
    assert!(!tinted(card().args(["shorten", &finale])));
    assert!(!tinted(card().args(["shorten", &finale, "--color", "never"])));
    assert!(tinted(card().args(["shorten", &finale, "--color", "always"])));
    assert!(tinted(card().args(["shorten", &finale, "--color", "always"]).env("NO_COLOR", "1")));
    for columns in ["60", "120", "0", "-1", "x", "99999999999999999999"] {
        let output =
            card().args(["shorten", &finale]).env("COLUMNS", columns).output().expect("the program runs");
        assert!(output.status.success());
        let width = columns.parse().ok().filter(|columns: &usize| *columns > 0).unwrap_or(100);
        let text = String::from_utf8(output.stdout).expect("ASCII");
        assert!(text.lines().all(|line| line.len() <= width.max(75)), "{columns}: {text}");
    }
}
