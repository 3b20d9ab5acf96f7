//! Writes the cases of the program test_collecting, one to a line: ROOT CARD WORDS. They are the cards
//! of `compare::own` and as many vectors of document 01 as fit, in their order, and last lines that are no
//! cases.
use compare::own;
use compare::text::{self, digits, Vector};
use compare::tree::outermost;
use std::cmp::Reverse;
use std::collections::{BTreeMap, HashSet};
use std::env;
use std::process::ExitCode;

/// The most bytes of all cases.
const ROOM: usize = 1_195_000;

/// Lines that are no cases.
const NO_CASES: [&str; 13] = [
    "02000000110 09000000610003000000010061 2048",
    "020000001100 0900000061000300000001006 2048",
    "02000000110G 09000000610003000000010061 2048",
    "020000001100 0900000061000300000001006- 2048",
    "-- 09000000610003000000010061 2048",
    "",
    " 09000000610003000000010061 2048",
    "020000001100  2048",
    "020000001100 09000000610003000000010061",
    "020000001100 09000000610003000000010061 ",
    "020000001100 09000000610003000000010061 20x8",
    "020000001100 09000000610003000000010061 2048 0",
    "020000001100",
];

/// How many vectors of a refusal are taken, the shortest first.
fn wanted(number: u32) -> usize {
    match number {
        2 | 8 => 1,
        _ => 15,
    }
}

fn line(root: &[u8], card: &[u8], words: usize) -> String {
    format!("{} {} {words}\n", digits(root), digits(card))
}

fn main() -> ExitCode {
    let folder = env::args_os().nth(1).ok_or("give a folder of vectors".to_string());
    match folder.and_then(|folder| text::folder(&folder.to_string_lossy())) {
        Ok(files) => run(&files[0].vectors),
        Err(e) => {
            eprintln!("cases: {e}");
            return ExitCode::from(2);
        }
    }
    ExitCode::SUCCESS
}

fn run(vectors: &[Vector]) {
    let mut sorts: BTreeMap<String, usize> = BTreeMap::new();
    let mut seen = HashSet::new();
    let mut lines = Vec::new();
    for case in own::cases() {
        let line = line(&case.root, &case.card, case.words);
        if seen.insert(line.clone()) {
            *sorts.entry(format!("own: {}", case.sort)).or_default() += 1;
            lines.push(line);
        }
    }
    let mut room = ROOM - lines.iter().map(String::len).sum::<usize>();

    let mut rest = Vec::new();
    for (i, v) in vectors.iter().enumerate() {
        let line = line(&v.root, &v.card, v.words);
        if seen.insert(line.clone()) {
            let pairs = outermost(&v.card, &v.root, v.words).map(|mapping| mapping.pairs.len());
            rest.push((i, line, pairs));
        }
    }
    rest.sort_by_key(|(_, line, _)| line.len());
    let mut most: Vec<usize> = rest.iter().flat_map(|(_, _, answer)| *answer).collect();
    most.sort_by_key(|&pairs| Reverse(pairs));
    let tenth = most.get(9).copied().unwrap_or(0);

    // First the refused and the ten with most pairs, then all others, the shortest first.
    let mut ranked = Vec::new();
    let mut refused = BTreeMap::new();
    for (i, line, answer) in rest {
        match answer {
            Ok(pairs) => ranked.push((pairs < tenth, i, line, "vectors: accepted".to_string())),
            Err((number, _)) => {
                let so_far = refused.entry(number).or_insert(0);
                *so_far += 1;
                if *so_far <= wanted(number) {
                    ranked.push((false, i, line, format!("vectors: refused by {number}")));
                }
            }
        }
    }
    ranked.sort_by_key(|&(last, ..)| last);
    let ranks = ranked.len();
    ranked.retain(|(_, _, line, _)| {
        let fits = line.len() <= room;
        room -= if fits { line.len() } else { 0 };
        fits
    });
    let left = ranks - ranked.len();
    ranked.sort_by_key(|&(_, i, ..)| i);
    for (_, _, line, sort) in ranked {
        *sorts.entry(sort).or_default() += 1;
        lines.push(line);
    }
    for (sort, count) in &sorts {
        eprintln!("{count:5}  {sort}");
    }
    eprintln!("{:5}  in all; {left} accepted vectors don't fit", lines.len());
    print!("{}", lines.concat());
    for line in NO_CASES {
        println!("{line}");
    }
}
