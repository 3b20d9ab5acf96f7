//! Bytes as hexadecimal digits, `-` for none, and the vectors.
use crate::{Answer, Operation, LANDED};
use std::collections::HashMap;

pub fn bytes(digits: &str) -> Option<Vec<u8>> {
    if digits == "-" {
        return Some(Vec::new());
    }
    let digit = |b: u8| matches!(b, b'0'..=b'9' | b'a'..=b'f');
    if digits.is_empty() || !digits.len().is_multiple_of(2) || !digits.bytes().all(digit) {
        return None;
    }
    (0..digits.len()).step_by(2).map(|i| u8::from_str_radix(digits.get(i..i + 2)?, 16).ok()).collect()
}

pub fn digits(bytes: &[u8]) -> String {
    if bytes.is_empty() {
        return "-".to_string();
    }
    bytes.iter().map(|b| format!("{b:02x}")).collect()
}

/// A line of the vectors: ROOT CARD OUTLEN WORKLEN = ANSWER; with a list of places,
/// old ROOT CARD OUTLEN WORKLEN PLACES = ANSWER; or straight ROOT CARD OUTLEN WORKLEN PLACES COUNTS = ANSWER.
#[derive(Clone)]
pub struct Vector {
    /// None where the line names none; upstream is meant then.
    pub operation: Option<Operation>,
    pub root: Vec<u8>,
    pub card: Vec<u8>,
    /// How many bytes are lent, and how many words.
    pub out: usize,
    pub words: usize,
    /// How many words of a list are lent, none where no list is.
    pub lent: Option<usize>,
    pub answer: Answer,
    /// Of an accepted card, and the words of its list's entries.
    pub output: Vec<u8>,
    pub list: Vec<u32>,
}

/// How a line may look.
pub const FORMS: &str = "ROOT CARD OUTLEN WORKLEN = ANSWER, \
    old ROOT CARD OUTLEN WORKLEN PLACES = ANSWER or \
    straight ROOT CARD OUTLEN WORKLEN PLACES x = ANSWER";

type Fields<'l> = std::str::Split<'l, char>;

/// What all forms have.
fn without_list(call: &mut Fields, answer: &mut Fields) -> Option<Vector> {
    let root = bytes(call.next()?)?;
    let card = bytes(call.next()?)?;
    let out = call.next()?.parse().ok()?;
    let words = call.next()?.parse().ok()?;
    let number = answer.next()?.parse().ok()?;
    let value = answer.next()?;
    let (answer, output) = match number {
        0 => (Ok(value.parse().ok()?), bytes(answer.next()?)?),
        _ => (Err((number, value.parse().ok()?)), Vec::new()),
    };
    Some(Vector { operation: None, root, card, out, words, lent: None, answer, output, list: Vec::new() })
}

/// A line that names no operation, or one that begins with it. Nothing else may stand there, nor a list
/// of counts, which is not known here.
pub fn vector(line: &str) -> Option<Vector> {
    let named = Operation::BOTH.into_iter().find_map(|operation| {
        let rest = line.strip_prefix(operation.word())?.strip_prefix(' ')?;
        Some((operation, rest))
    });
    let vector = match named {
        Some((operation, rest)) => listed(operation, rest)?,
        None => {
            let (call, answer) = line.split_once(" = ")?;
            without_list(&mut call.split(' '), &mut answer.split(' '))?
        }
    };
    (format!("{} = {}", vector.question(), vector.answer()) == line).then_some(vector)
}

/// What stands in a line behind its operation.
fn listed(operation: Operation, rest: &str) -> Option<Vector> {
    let (call, answer) = rest.split_once(" = ")?;
    let (mut call, mut answer) = (call.split(' '), answer.split(' '));
    let mut vector = without_list(&mut call, &mut answer)?;
    vector.operation = Some(operation);
    vector.lent = match call.next()? {
        "x" => None,
        words => Some(words.parse().ok()?),
    };
    if vector.answer.is_ok() {
        vector.list = match (vector.lent, answer.next()?, answer.next()?) {
            (None, "x", "x") => Vec::new(),
            (None, ..) => return None,
            (Some(_), entries, list) => entries_of(entries.parse().ok()?, list)?,
        };
    }
    Some(vector)
}

/// The words of so many entries, with commas, `-` for none.
fn entries_of(entries: usize, list: &str) -> Option<Vec<u32>> {
    let words: Vec<u32> = match list {
        "-" => Vec::new(),
        words => words.split(',').map(|word| word.parse().ok()).collect::<Option<_>>()?,
    };
    (words.len() == 2 * entries).then_some(words)
}

/// A file of vectors, each with its latest answer.
pub struct File {
    pub name: String,
    /// Whose vectors these are: a request's, or document 01's with 0.
    pub request: u32,
    pub vectors: Vec<Vector>,
    /// How many have another answer than they had in this file.
    pub changed: usize,
}

/// A file as it was read.
struct Source {
    request: u32,
    /// Whether its lines replace earlier ones.
    replaces: bool,
    name: String,
    text: String,
}

/// The request that a file of vectors came with, and whether its lines replace earlier ones.
fn part(name: &str) -> Option<(u32, bool)> {
    let stem = name.strip_suffix(".txt")?;
    if stem == "base" {
        return Some((0, false));
    }
    match stem.split_once('-')? {
        ("base" | "changed", request) => Some((request.parse().ok()?, true)),
        (request, _) => Some((request.parse().ok()?, false)),
    }
}

/// The files of a folder of vectors up to the last request that is answered here: base.txt and each
/// NN-name.txt. A line of base-N.txt or changed-N.txt replaces an earlier one that asks the same.
pub fn folder(folder: &str) -> Result<Vec<File>, String> {
    let unread = |name: &str, e| format!("{name} can't be read: {e}");
    let entries = std::fs::read_dir(folder).and_then(Iterator::collect::<Result<Vec<_>, _>>);
    let names = entries.map_err(|e| unread(folder, e))?;
    let names = names.into_iter().filter_map(|entry| entry.file_name().into_string().ok());
    let mut sources = Vec::new();
    for name in names {
        let Some((request, replaces)) = part(&name).filter(|&(request, _)| request <= LANDED) else {
            continue;
        };
        let file = format!("{folder}/{name}");
        let text = std::fs::read_to_string(&file).map_err(|e| unread(&file, e))?;
        sources.push(Source { request, replaces, name, text });
    }
    // Of a request first what replaces, since that is of earlier ones.
    sources.sort_by(|a, b| (a.request, b.replaces, &a.name).cmp(&(b.request, a.replaces, &b.name)));
    if sources.first().is_none_or(|first| first.request != 0) {
        return Err(format!("{folder} has no base.txt"));
    }
    let files = latest(sources)?;
    match files.iter().all(|file| file.vectors.is_empty()) {
        true => Err(format!("{folder} has no case")),
        false => Ok(files),
    }
}

/// The files, these being all in their order.
fn latest(sources: Vec<Source>) -> Result<Vec<File>, String> {
    let mut answers: HashMap<String, Vector> = HashMap::new();
    let mut files = Vec::new();
    for Source { request, replaces, name, text } in sources {
        let mut vectors = Vec::new();
        for (i, line) in text.lines().enumerate() {
            let wrong = |how| Err(format!("{name}: line {} {how}", i + 1));
            let Some(vector) = vector(line) else { return wrong(format!("is no case: {FORMS}")) };
            let earlier = answers.insert(vector.question(), vector.clone());
            if replaces && earlier.is_none() {
                return wrong("replaces no earlier line".to_string());
            }
            vectors.push(vector);
        }
        if !replaces {
            files.push(File { name, request, vectors, changed: 0 });
        }
    }
    for file in &mut files {
        for vector in &mut file.vectors {
            let answer = &answers[&vector.question()];
            file.changed += (answer.answer() != vector.answer()) as usize;
            vector.clone_from(answer);
        }
    }
    Ok(files)
}

/// A case as a line of the vectors has it, ahead of ` = `.
pub fn question(
    operation: Option<Operation>,
    root: &[u8],
    card: &[u8],
    out: usize,
    words: usize,
    lent: Option<usize>,
) -> String {
    let plain = format!("{} {} {out} {words}", digits(root), digits(card));
    let Some(operation) = operation else { return plain };
    let places = lent.map_or("x".to_string(), |words| words.to_string());
    let counts = if operation == Operation::Straight { " x" } else { "" };
    format!("{} {plain} {places}{counts}", operation.word())
}

impl Vector {
    /// What stands in its line ahead of ` = `.
    pub fn question(&self) -> String {
        question(self.operation, &self.root, &self.card, self.out, self.words, self.lent)
    }

    /// What stands behind.
    pub fn answer(&self) -> String {
        let length = match self.answer {
            Ok(length) => length,
            Err((number, place)) => return format!("{number} {place}"),
        };
        let plain = format!("0 {length} {}", digits(&self.output));
        let Some(operation) = self.operation else { return plain };
        let words: Vec<String> = self.list.iter().map(u32::to_string).collect();
        let list = match (self.lent, &words[..]) {
            (None, _) => "x x".to_string(),
            (_, []) => "0 -".to_string(),
            _ => format!("{} {}", words.len() / 2, words.join(",")),
        };
        let counts = if operation == Operation::Straight { " x x" } else { "" };
        format!("{plain} {list}{counts}")
    }
}

#[cfg(test)]
mod tests {
    use super::*;

    const CALL: &str = "020000001100 09000000610003000000010061 13 2048";

    fn line(rest: &str) -> Option<Vector> {
        vector(&format!("old {CALL} {rest}"))
    }

    #[test]
    fn lists() {
        let v = line("7 = 0 3 010203 2 31,3,87,1").unwrap();
        assert_eq!((v.root.len(), v.card.len(), v.out, v.words), (6, 13, 13, 2048));
        assert_eq!((v.lent, v.answer), (Some(7), Ok(3)));
        assert_eq!((v.output, v.list), (vec![1, 2, 3], vec![31, 3, 87, 1]));
        let v = line("0 = 0 13 61 0 -").unwrap();
        assert_eq!((v.lent, v.list), (Some(0), vec![]));
        let v = line("x = 0 13 61 x x").unwrap();
        assert_eq!((v.lent, v.answer, v.list), (None, Ok(13), vec![]));
        let v = line("3 = 10 0").unwrap();
        assert_eq!((v.lent, v.answer, v.output, v.list), (Some(3), Err((10, 0)), vec![], vec![]));
    }

    #[test]
    fn straight_lines() {
        let line = |rest: &str| vector(&format!("straight {CALL} {rest}"));
        let v = line("7 x = 0 3 010203 2 31,3,87,1 x x").unwrap();
        assert_eq!((v.operation, v.lent, v.answer), (Some(Operation::Straight), Some(7), Ok(3)));
        assert_eq!((v.output, v.list), (vec![1, 2, 3], vec![31, 3, 87, 1]));
        let v = line("x x = 0 13 61 x x x x").unwrap();
        assert_eq!((v.lent, v.answer, v.list), (None, Ok(13), vec![]));
        let v = line("3 x = 10 0").unwrap();
        assert_eq!((v.lent, v.answer), (Some(3), Err((10, 0))));
        for rest in [
            "7 = 10 0",
            "7 4 = 10 0",
            "7 x = 0 3 010203 2 31,3,87,1",
            "7 x = 0 3 010203 2 31,3,87,1 x",
            "7 x = 0 3 010203 2 31,3,87,1 1 4,4",
            "7 x = 0 3 010203 2 31,3,87,1 x x x",
            "7 x x = 10 0",
            "y x = 10 0",
        ] {
            assert!(line(rest).is_none(), "{rest}");
        }
    }

    #[test]
    fn no_cases() {
        for rest in [
            "= 10 0",
            "7 = 0 3 010203",
            "7 = 0 3 010203 2 31,3,87",
            "7 = 0 3 010203 1 31,3,87,1",
            "7 = 0 3 010203 2 31,3,87,",
            "7 = 0 3 010203 x x",
            "x = 0 3 010203 2 31,3,87,1",
            "y = 10 0",
        ] {
            assert!(line(rest).is_none(), "{rest}");
        }
        assert!(vector(&format!("{CALL} = 9 0")).is_some());
        assert!(vector(&format!("{CALL} x = 9 0")).is_none());
        assert!(vector(&format!("{CALL} = 9 0 0")).is_none());
        assert!(vector(&format!("new {CALL} x = 9 0")).is_none());
    }

    #[test]
    fn parts() {
        assert_eq!(part("base.txt"), Some((0, false)));
        assert_eq!(part("01-places.txt"), Some((1, false)));
        assert_eq!(part("base-4.txt"), Some((4, true)));
        assert_eq!(part("changed-12.txt"), Some((12, true)));
        for other in ["README.md", "base", "changed.txt", "base-x.txt", "places.txt", "a-1.txt"] {
            assert_eq!(part(other), None, "{other}");
        }
    }

    /// A line holds as the last file says, wherever it stands, and one that replaces must find what it
    /// replaces.
    #[test]
    fn latest_answers() {
        let text = |request, replaces, name: &str, lines: &[String]| {
            let (name, text) = (name.to_string(), lines.join("\n"));
            Source { request, replaces, name, text }
        };
        let plain = |answer: &str| format!("{CALL} = {answer}");
        let old = |answer: &str| format!("old {CALL} x = {answer}");
        let texts = || {
            vec![
                text(0, false, "base.txt", &[plain("9 0")]),
                text(1, false, "01-places.txt", &[old("9 0")]),
                text(2, false, "02-straight.txt", &[old("9 0"), old("9 0").replace("2048", "4096")]),
                text(4, true, "base-4.txt", &[plain("11 7")]),
                text(4, true, "changed-4.txt", &[old("11 8")]),
                text(5, true, "changed-5.txt", &[old("3 0")]),
            ]
        };
        let files = latest(texts()).unwrap();
        let seen: Vec<_> = files.iter().map(|f| (&f.name[..2], f.request, f.changed)).collect();
        assert_eq!(seen, [("ba", 0, 1), ("01", 1, 1), ("02", 2, 1)]);
        let answers: Vec<_> = files.iter().flat_map(|f| &f.vectors).map(|v| v.answer.unwrap_err()).collect();
        assert_eq!(answers, [(11, 7), (3, 0), (3, 0), (9, 0)]);
        let said = |more| latest(texts().into_iter().chain([more]).collect()).err().unwrap_or_default();
        let new = [plain("3 0"), plain("11 7").replace(" 13 ", " 14 ")];
        assert_eq!(said(text(5, false, "05-limit.txt", &new)), "");
        let none = "base-5.txt: line 2 replaces no earlier line";
        assert_eq!(said(text(5, true, "base-5.txt", &new)), none);
        assert!(
            said(text(5, true, "base-5.txt", &["?".to_string()])).starts_with("base-5.txt: line 1 is no ")
        );
    }
}
