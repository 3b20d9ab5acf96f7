//! The program as it is run: its last line, wrong arguments, kept cases.
use std::fs;
use std::path::PathBuf;
use std::process::Command;

/// Exit status, standard output and standard error.
fn run(words: &[&str]) -> (Option<i32>, String, String) {
    let given = Command::new(env!("CARGO_BIN_EXE_compare")).args(words).output().expect("the program runs");
    let text = |bytes| String::from_utf8(bytes).expect("text");
    (given.status.code(), text(given.stdout), text(given.stderr))
}

/// A file of this test alone.
fn file(name: &str, text: &str) -> String {
    let path = PathBuf::from(env!("CARGO_TARGET_TMPDIR")).join(name);
    fs::write(&path, text).expect("the folder is there");
    path.to_str().expect("a name in UTF-8").to_string()
}

#[test]
fn random_cards() {
    let (status, said, wrong) = run(&["--count", "1001", "--seed", "3"]);
    assert_eq!((status, wrong.as_str()), (Some(0), ""));
    let start = "1,001 cards compared by both operations, seed 3: 0 differ (";
    assert!(said.starts_with(start) && said.ends_with(" by 11)\n"), "{said}");
    assert_eq!(said.lines().count(), 1);
    // Each of the 1,001 cards is answered by each operation.
    let number = |word: &str| word.trim_matches('(').replace(',', "").parse::<usize>();
    let counts: Vec<usize> = said[start.len()..].split(' ').flat_map(number).collect();
    assert_eq!(counts[0] + counts[1], 2002);
    assert_eq!(run(&["--seed", "3", "--count", "1001"]).1, said);
}

#[test]
fn wrong_arguments() {
    let empty = file("empty", "");
    let no_case = file("no_case", "020000001100 09000000610003000000010061 13 2048\n?\n");
    let greedy = file("greedy", "020000001100 09000000610003000000010061 99999999999 2048\n");
    let no_vectors = PathBuf::from(env!("CARGO_TARGET_TMPDIR")).join("no_vectors");
    fs::create_dir_all(&no_vectors).expect("the folder is there");
    file("no_vectors/base.txt", "");
    let no_vectors = no_vectors.to_str().expect("a name in UTF-8");
    let not_text = file("not_text", "");
    fs::write(&not_text, [0xFF, 0xFE]).expect("the file is there");
    let wrong: &[(&[&str], &str)] = &[
        (&["--count"], "--count wants a number"),
        (&["--count", "0"], "--count wants a number from 1 on, not 0"),
        (&["--count", "-1"], "--count wants a number from 1 on, not -1"),
        (&["--count", "many"], "--count wants a number from 1 on, not many"),
        (&["--count", "99999999999999999999999"], "--count wants a number from 1 on, not 9"),
        (&["--seed", ""], "--seed wants a number from 0 on, not "),
        (&["--seed", "1.5"], "--seed wants a number from 0 on, not 1.5"),
        (&["--vectors"], "--vectors wants a folder"),
        (&["--vectors", "/no/such/folder"], "/no/such/folder can't be read"),
        (&["--vectors", env!("CARGO_MANIFEST_DIR")], "has no base.txt"),
        (&["--vectors", no_vectors], "has no case"),
        (&["--keep"], "--keep wants a file"),
        (&["--keep", "/no/such/folder/file"], "/no/such/folder/file can't be written"),
        (&["--all"], "there is no --all"),
        (&["--two\nlines"], "there is no --two\\nlines"),
        (&["/no/such/file"], "/no/such/file can't be read"),
        (&["a", "b"], "one file at a time"),
        (&["a", "--count", "7"], "a file is compared by itself"),
        (&[&empty], "has no case"),
        (&[&no_case], "line 2 is no case"),
        (&[&greedy], "line 1 lends more than"),
        (&[&not_text], "can't be read"),
    ];
    for (words, says) in wrong {
        let (status, said, wrong) = run(words);
        assert_eq!((status, said.as_str()), (Some(2), ""), "{words:?}");
        assert!(wrong.starts_with("compare: ") && wrong.contains(says), "{words:?}: {wrong}");
        assert_eq!(wrong.lines().count(), 1, "{words:?}: {wrong}");
    }
}

#[test]
fn help() {
    let (status, said, wrong) = run(&["--help"]);
    assert_eq!((status, wrong.as_str()), (Some(0), ""));
    assert!(said.starts_with("compare [--count N]"));
}

/// A case alone, by both operations or by its own; and one whose stated answer is wrong, which is kept.
#[test]
fn kept_cases() {
    let case = "020000001100 09000000610003000000010061 13 2048";
    let alone = file("alone", &format!("{case}\nold {case} 0\nstraight {case} x x\n"));
    let (status, said, _) = run(&[&alone]);
    assert_eq!(status, Some(0));
    let counts: Vec<&str> = said.lines().map(|line| &line[alone.len()..]).collect();
    assert!(counts[0].starts_with(", old: 0 of 2 differ (console)"), "{said}");
    assert!(counts[1].starts_with(", straight: 0 of 2 differ (console)"), "{said}");
    let wrong = file("wrong", &format!("{case} = 0 13 09000000610003000000010061\n{case} = 4 7\n"));
    let kept = file("kept", "");
    let (status, said, _) = run(&[&wrong, "--keep", &kept]);
    assert_eq!(status, Some(1));
    assert!(said.contains(&format!("{wrong} 2, old: tree answers 0 13; stated is 4 7\n    {case}\n")));
    assert!(said.contains(", old: 1 of 2 differ"), "{said}");
    assert_eq!(fs::read_to_string(&kept).expect("a text"), format!("{case}\n"));
    // It is a case by itself, and nothing differs where nothing is stated: then nothing is kept.
    assert_eq!(run(&[&kept]).0, Some(0));
    assert_eq!(run(&[&kept, "--keep", &kept]).0, Some(0));
    assert_eq!(fs::read_to_string(&kept).expect("a text"), "");
}
