//! What the program test_collecting should write for the cases on standard input, one to a line:
//! ROOT CARD WORDS.
use compare::tree::{bytes, is_runtime, outermost, Path};
use compare::{text, Refusal, WORDS};
use std::io::{self, Read, Write};

fn case(line: &str) -> Option<(Vec<u8>, Vec<u8>, usize)> {
    let mut fields = line.split(' ');
    let root = text::bytes(fields.next()?)?;
    let card = text::bytes(fields.next()?)?;
    let words = fields.next().filter(|w| w.bytes().all(|b| b.is_ascii_digit()))?.parse().ok()?;
    match fields.next() {
        None => Some((root, card, words)),
        Some(_) => None,
    }
}

fn lines(card: &[u8], root: &[u8], words: usize) -> Result<String, Refusal> {
    // The program collects in no more words than these.
    let mapping = outermost(card, root, words.min(WORDS))?;
    let shown = |base: &Path| {
        if *base == *mapping.prefix {
            "prefix".to_string()
        } else if is_runtime(base) {
            "runtime".to_string()
        } else {
            text::digits(&bytes(base))
        }
    };
    let mut lines = String::new();
    for (name, base) in &mapping.pairs {
        lines += &format!("pair {} {}\n", text::digits(name.0), shown(base));
    }
    for &name in &mapping.keys {
        let base = mapping.chosen(name).map_or("none".to_string(), |base| shown(base));
        lines += &format!("chosen {} {base}\n", text::digits(name.0));
    }
    for (name, base) in mapping.uses() {
        lines += &format!("use {} {}\n", text::digits(name.0), shown(base));
    }
    Ok(lines + &format!("{} pairs\n", mapping.pairs.len()))
}

fn main() -> io::Result<()> {
    let mut input = String::new();
    io::stdin().read_to_string(&mut input)?;
    let mut out = io::BufWriter::new(io::stdout().lock());
    for line in input.lines() {
        let Some((root, card, words)) = case(line) else {
            writeln!(out, "no case: write ROOT CARD WORDS, the first two in hexadecimal, - for no bytes")?;
            continue;
        };
        match lines(&card, &root, words) {
            Ok(lines) => out.write_all(lines.as_bytes())?,
            Err((number, place)) => writeln!(out, "{number} {place}")?,
        }
    }
    out.flush()
}
