//! Writes what the programs batch, test_apply and shorten are run on, and what they should write: the files stdin
//! and stdout of a folder.
use compare::cards::{self, CRATE};
use compare::stated::{self, Stated};
use compare::text::{self, digits, Vector};
use compare::{own, tree, Operation, LANDED, MOST_CARD, MOST_ENTRIES, MOST_TIMES, WORDS};
use std::env;
use std::fs;
use std::hash::RandomState;
use std::ops::RangeInclusive;
use std::process::ExitCode;
use yardstick::walk;

const USAGE: &str = "\
gate batch VECTORS FOLDER  every vector of the folder VECTORS with its latest answer, and cases
                           whose answers are stated or given alike by the two in Rust; files of
                           requests that are not answered yet are left out
gate apply FOLDER          the four cases of TestApply
gate shorten FOLDER        a card with as many names as its words have room for";

const NO_CASE: &str = "no case: write ROOT CARD OUTLEN WORKLEN in less than 262144 characters, \
the first two in hexadecimal, - for no bytes";

/// Lines that are no cases.
const NO_CASES: [&str; 12] = [
    "",
    "?",
    "020000001100",
    "020000001100 09000000610003000000010061",
    "020000001100 09000000610003000000010061 100",
    "020000001100 09000000610003000000010061 100 ",
    "020000001100 09000000610003000000010061 100 2048 0",
    "020000001100 09000000610003000000010061 x 2048",
    "020000001100 0900000061000300000001006 100 2048",
    "02000000110G 09000000610003000000010061 100 2048",
    " 020000001100 09000000610003000000010061 100 2048",
    "020000001100 09000000610003000000010061 100 2048= 0",
];

const NO_LIST: &str = "no case: write old ROOT CARD OUTLEN WORKLEN PLACES in less than 262144 characters, \
PLACES a number of words or x for no list";

/// Cases that should have a list and have none.
const NO_LISTS: [&str; 2] = [
    "old 020000001100 09000000610003000000010061 13 2048",
    "old 020000001100 09000000610003000000010061 13 2048 y",
];

const NO_STRAIGHT: &str =
    "no case: write straight ROOT CARD OUTLEN WORKLEN PLACES COUNTS in less than 262144 \
characters, PLACES a number of words or x for no list, COUNTS x";

/// Cases of straight shortening that have too few fields, or other ones.
const NO_STRAIGHTS: [&str; 5] = [
    "straight 020000001100 09000000610003000000010061 13 2048",
    "straight 020000001100 09000000610003000000010061 13 2048 x",
    "straight 020000001100 09000000610003000000010061 13 2048 y x",
    "straight 020000001100 09000000610003000000010061 13 2048 0 4",
    "straight 020000001100 09000000610003000000010061 13 2048 0 x x",
];

/// Module m with `use ::B` and `impl ::B {}`: the use put ahead has the bytes of the card's own.
const OWN_USE: &str = "7200000060000200000001000200000003000300000001006d590000000200220000006a001c000000800003000000030001\
0f0000001300020000001000030000000100422d0000006700270000007a00020000000200150000002d000f000000130002000000100003000000010042020000000200";

/// A case and its answer, a line of each.
#[derive(Default)]
struct Lines {
    cases: String,
    answers: String,
}

impl Lines {
    fn put(&mut self, case: &str, answer: &str) {
        self.cases += &format!("{case}\n");
        self.answers += &format!("{answer}\n");
    }

    fn put_case(&mut self, case: &Vector) {
        self.put(&case.question(), &case.answer());
    }

    fn write(&self, folder: &str) -> Result<(), String> {
        write(folder, self.cases.as_bytes(), self.answers.as_bytes())
    }
}

fn write(folder: &str, stdin: &[u8], stdout: &[u8]) -> Result<(), String> {
    for (name, bytes) in [("stdin", stdin), ("stdout", stdout)] {
        fs::write(format!("{folder}/{name}"), bytes)
            .map_err(|e| format!("{folder}/{name} can't be written: {e}"))?;
    }
    Ok(())
}

/// A card of `compare::own`, lent just what it takes. Its answer is that of the two in Rust, which must agree.
fn of_own(operation: Operation, case: own::Case) -> Result<Vector, String> {
    let own::Case { sort, root, card, words } = case;
    let [first, second] = [tree::shorten_places, walk::shorten_places::<RandomState>].map(|shorten| {
        let (mut out, mut list) = (vec![0; MOST_CARD * MOST_TIMES], vec![0; 2 * MOST_ENTRIES]);
        let answer = shorten(operation, &card, &root, &mut out, words, &mut list);
        let (length, entries) = answer.unwrap_or((0, 0));
        out.truncate(length);
        list.truncate(2 * entries);
        (answer, out, list)
    });
    if first != second {
        return Err(format!("the two in Rust differ at {sort}"));
    }
    let (answer, output, list) = first;
    let answer = answer.map(|(length, _)| length);
    let (operation, out, lent) = (Some(operation), output.len(), Some(list.len()));
    Ok(Vector { operation, root, card, out, words, lent, answer, output, list })
}

/// The same case without a list; the plain one, without its operation too; and a case that is refused at place 0.
fn without_list(case: &Vector) -> Vector {
    Vector { lent: None, list: Vec::new(), ..case.clone() }
}

fn plain(case: &Vector) -> Vector {
    Vector { operation: None, ..without_list(case) }
}

fn refused(number: u32, case: Vector) -> Vector {
    Vector { answer: Err((number, 0)), output: Vec::new(), list: Vec::new(), ..case }
}

/// With one byte too few; there is one at least.
fn no_space(case: &Vector) -> Vector {
    refused(9, Vector { out: case.out - 1, ..case.clone() })
}

/// With one word too few; there is one at least.
fn short_list(case: &Vector) -> Vector {
    refused(10, Vector { lent: case.lent.map(|words| words - 1), ..case.clone() })
}

/// A card whose own use is that of the pass, with lists of several lengths and with none.
fn put_own_use(lines: &mut Lines, operation: Operation) {
    let card = text::bytes(OWN_USE).expect("hexadecimal digits");
    let mut output = vec![0; MOST_CARD * MOST_TIMES];
    let length = tree::shorten(operation, &card, &CRATE, &mut output, WORDS).expect("a sound card");
    output.truncate(length);
    let case = Vector {
        operation: Some(operation),
        root: CRATE.to_vec(),
        card,
        out: length,
        words: WORDS,
        lent: Some(4),
        answer: Ok(length),
        output,
        list: vec![31, 3, 125, 1],
    };
    lines.put_case(&case);
    lines.put_case(&short_list(&case));
    lines.put_case(&Vector { lent: Some(5), ..case.clone() });
    lines.put_case(&without_list(&case));
}

/// Limits and wrong ports, the cards of `compare::own`, and lines that are no cases.
fn put_plain(lines: &mut Lines) -> Result<(), String> {
    for case in stated::limits().into_iter().chain(stated::wrong_ports(Operation::Upstream)) {
        lines.put_case(&case.vector(None));
    }
    for (i, case) in own::cases().into_iter().enumerate() {
        let case = plain(&of_own(Operation::Upstream, case)?);
        lines.put_case(&case);
        if i % 10 == 0 && !case.output.is_empty() {
            lines.put_case(&no_space(&case));
        }
    }
    // What is past the room, and past the end of a case.
    let least = stated::limits().swap_remove(2).vector(None);
    lines.put_case(&Vector { out: 99_999_999_999, words: 99_999_999_999, ..least.clone() });
    let least = Vector { out: 100, ..least };
    lines.put(&format!("{} = anything", least.question()), &least.answer());
    for line in NO_CASES {
        lines.put(line, NO_CASE);
    }
    // Longer than a line may be, and the longest that is one.
    lines.put(&"0".repeat(600_001), NO_CASE);
    lines.put(&format!("- {} 0 {WORDS}", "0".repeat(262_143 - 9)), "2 0");
    Ok(())
}

/// A card whose own use is that of the pass, and lines that are no cases with lists.
fn put_lists(lines: &mut Lines) {
    put_own_use(lines, Operation::Upstream);
    for line in NO_LISTS {
        lines.put(line, NO_LIST);
    }
}

/// Cards of `compare::own` with lists, now and then without one, or with too few bytes or words.
fn put_own(lines: &mut Lines, operation: Operation, cases: Vec<own::Case>) -> Result<(), String> {
    for (i, case) in cases.into_iter().enumerate() {
        let case = of_own(operation, case)?;
        lines.put_case(&case);
        if i % 10 == 0 {
            lines.put_case(&without_list(&case));
            if !case.output.is_empty() {
                lines.put_case(&no_space(&case));
            }
            if !case.list.is_empty() {
                lines.put_case(&short_list(&case));
            }
        }
    }
    Ok(())
}

/// Cards with as many pairs as their bytes allow, at the lengths that decide how many work words a call brings; and one with as many places
/// as its bytes allow, with lists around a word for every six bytes.
fn put_dense(lines: &mut Lines, operation: Operation) -> Result<(), String> {
    let case = |sort, card| of_own(operation, own::Case { sort, root: CRATE.to_vec(), card, words: WORDS });
    for bytes in [89, 90, 593, 594, 2321, 2322] {
        // An ExternMod in a module takes 19 bytes with a name of one, the module around them 30 and its own name.
        let pairs = (bytes - 31) / 19;
        let body: Vec<_> =
            (1..=pairs).map(|name| cards::nested(cards::extern_module([name as u8]))).collect();
        lines.put_case(&case("dense pairs", cards::module("m".repeat(bytes - 30 - 19 * pairs), &body))?);
    }
    let names: Vec<_> = (b'a'..=b'z').map(|name| format!("::{}", name as char)).collect();
    let names: Vec<_> = names.iter().map(String::as_str).collect();
    let dense = case("dense places", cards::module("", &[cards::types(&names)]))?;
    let enough = dense.card.len() / 6;
    for lent in [dense.list.len(), enough - 1, enough] {
        lines.put_case(&Vector { lent: Some(lent), ..dense.clone() });
    }
    lines.put_case(&short_list(&dense));
    Ok(())
}

/// Cases of straight shortening whose answers are stated, the cards of `compare::own`, a card whose own use is
/// that of the pass, and lines that are no such cases; of what tells the operations apart the old one's too.
fn put_straight(lines: &mut Lines) -> Result<(), String> {
    const STRAIGHT: Operation = Operation::Straight;
    for case in stated::limits().into_iter().chain(stated::wrong_ports(STRAIGHT)) {
        lines.put_case(&case.vector(Some(STRAIGHT)));
    }
    for operation in Operation::BOTH {
        for case in stated::told_apart(operation) {
            lines.put_case(&case.vector(Some(operation)));
        }
        put_own(lines, operation, own::differing())?;
    }
    put_own(lines, STRAIGHT, own::cases())?;
    put_own_use(lines, STRAIGHT);
    // What is past the end of a case.
    let least = stated::limits().swap_remove(2).vector(Some(STRAIGHT));
    lines.put(&format!("{} = anything", least.question()), &least.answer());
    for line in NO_STRAIGHTS {
        lines.put(line, NO_STRAIGHT);
    }
    Ok(())
}

/// Cases whose answers are stated, by both operations, which answer them alike.
fn put_alike(lines: &mut Lines, cases: fn() -> Vec<Stated>) {
    for operation in Operation::BOTH {
        for case in cases() {
            lines.put_case(&case.vector(Some(operation)));
        }
    }
}

fn batch(vectors: &str, folder: &str) -> Result<(), String> {
    let mut lines = Lines::default();
    let files = text::folder(vectors)?;
    for file in &files {
        println!(
            "{}: {} lines, {} answered otherwise by a later file",
            file.name,
            file.vectors.len(),
            file.changed
        );
    }
    let put_vectors = |lines: &mut Lines, requests: RangeInclusive<u32>| {
        let of = files.iter().filter(|file| requests.contains(&file.request));
        of.flat_map(|file| &file.vectors).for_each(|v| lines.put_case(v));
    };
    put_vectors(&mut lines, 0..=0);
    put_plain(&mut lines)?;
    put_vectors(&mut lines, 1..=1);
    put_lists(&mut lines);
    put_vectors(&mut lines, 2..=2);
    put_straight(&mut lines)?;
    put_vectors(&mut lines, 3..=4);
    put_alike(&mut lines, stated::nameless);
    put_vectors(&mut lines, 5..=LANDED);
    put_alike(&mut lines, stated::full_tables);
    for operation in Operation::BOTH {
        put_dense(&mut lines, operation)?;
    }
    lines.write(folder)
}

/// A record in words: a Text in quotes, a Kept's digits, a List's records in brackets, any other's in parentheses
/// behind its kind; of a synonym only its display.
fn shown(record: &[u8]) -> String {
    let content = &record[6..];
    match record[4] {
        0x01 => format!("'{}'", String::from_utf8_lossy(content)),
        0x02 => format!("[{}]", all_shown(content)),
        0x03 => digits(content),
        0x37 => all_shown(&content[..end(content)]),
        kind => format!("{kind:02x}({})", all_shown(content)),
    }
}

fn end(records: &[u8]) -> usize {
    4 + u32::from_le_bytes([records[0], records[1], records[2], records[3]]) as usize
}

fn all_shown(mut records: &[u8]) -> String {
    let mut all = Vec::new();
    while !records.is_empty() {
        let (it, rest) = records.split_at(end(records));
        all.push(shown(it));
        records = rest;
    }
    all.join(" ")
}

fn apply(folder: &str) -> Result<(), String> {
    let mut lines = Lines::default();
    for (card, due) in stated::test_apply() {
        lines.put(&format!("{} {} {WORDS}", digits(&CRATE), digits(&card)), &shown(&due));
    }
    lines.write(folder)
}

fn shorten(folder: &str) -> Result<(), String> {
    let (card, output) = stated::most_names();
    write(folder, &card, &output)
}

fn main() -> ExitCode {
    let words: Vec<_> = env::args_os().skip(1).collect();
    let words: Vec<_> = words.iter().map(|word| word.to_string_lossy()).collect();
    let words: Vec<&str> = words.iter().map(|word| &**word).collect();
    let done = match words[..] {
        ["--help"] => {
            println!("{USAGE}");
            Ok(())
        }
        ["batch", vectors, folder] => batch(vectors, folder),
        ["apply", folder] => apply(folder),
        ["shorten", folder] => shorten(folder),
        _ => Err("no such arguments; gate --help says which there are".to_string()),
    };
    match done {
        Ok(()) => ExitCode::SUCCESS,
        Err(e) => {
            eprintln!("gate: {e}");
            ExitCode::from(2)
        }
    }
}
