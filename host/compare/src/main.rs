//! The program: compares the proved code with `tree` on random cards, on vectors or on cases kept before.
use compare::at_random;
use compare::case::{within_limits, Case};
use compare::comparison::compare_all;
use compare::current;
use compare::report::Report;
use compare::text;
use compare::ways::{Way, CONSOLE};
use std::ffi::{OsStr, OsString};
use std::fmt::Display;
use std::fs;
use std::io::{self, IsTerminal, StderrLock, Write};
use std::panic;
use std::process::{self, ExitCode};
use std::time::{Duration, Instant};

const USAGE: &str = "\
compare [--count N] [--seed S]  N random cards (100,000), those of the seed S (1)
compare --vectors FOLDER        the cases of a folder of vectors; with --count or --seed random
                                cards too
compare FILE                    the cases in a file, one to a line: a card that differed is printed
                                as such a line
--keep FILE                     writes the first cases that differ, those that are printed, into
                                a file
The exit status is 0 where nothing differs, 1 where something does, 2 for a wrong argument, 3 where
the comparison itself panics at a card.";

const WAYS: &[Way] = &[CONSOLE];
const COUNT: usize = 100_000;
const SEED: u64 = 1;

/// What was asked for.
#[derive(Default)]
struct Asked {
    help: bool,
    count: Option<usize>,
    seed: Option<u64>,
    vectors: Option<OsString>,
    file: Option<OsString>,
    keep: Option<OsString>,
}

impl Asked {
    fn of(words: impl IntoIterator<Item = OsString>) -> Result<Asked, String> {
        let mut asked = Asked::default();
        let mut words = words.into_iter();
        while let Some(word) = words.next() {
            let mut value =
                |what| words.next().ok_or_else(|| format!("{} wants {what} behind it", word.display()));
            match word.to_str() {
                Some("--help" | "-h") => asked.help = true,
                Some("--count") => {
                    let count = value("a number")?;
                    asked.count = Some(number(&count, "--count", 1)?);
                }
                Some("--seed") => {
                    let seed = value("a number")?;
                    asked.seed = Some(number(&seed, "--seed", 0)?);
                }
                Some("--vectors") => asked.vectors = Some(value("a folder")?),
                Some("--keep") => asked.keep = Some(value("a file")?),
                Some(option) if option.starts_with('-') => {
                    return Err(format!("there is no {option}; compare --help says what there is"));
                }
                _ if asked.file.is_some() => {
                    return Err(format!("one file at a time, and not {} too", word.display()));
                }
                _ => asked.file = Some(word),
            }
        }
        let others = asked.count.is_some() || asked.seed.is_some() || asked.vectors.is_some();
        match asked.file.is_some() && others {
            true => Err("a file is compared by itself: leave --count, --seed and --vectors out".to_string()),
            false => Ok(asked),
        }
    }
}

fn number<T: std::str::FromStr + PartialOrd + Display>(
    digits: &OsStr,
    option: &str,
    least: T,
) -> Result<T, String> {
    let number = digits.to_str().and_then(|digits| digits.parse().ok()).filter(|number| *number >= least);
    number.ok_or_else(|| format!("{option} wants a number from {least} on, not {}", digits.display()))
}

fn unread(what: &OsStr, e: io::Error) -> String {
    format!("{} can't be read: {e}", what.display())
}

/// In one line, whatever the names in it are.
fn on_one_line(text: &str) -> String {
    let plain = |c: char| if c.is_control() { c.escape_default().to_string() } else { c.to_string() };
    text.chars().map(plain).collect()
}

/// Writes a line to standard output. Nobody may be there to read it any more.
fn say(line: impl Display) {
    let _ = writeln!(io::stdout(), "{line}");
}

/// With commas.
fn grouped(number: usize) -> String {
    let digits = number.to_string();
    let groups: Vec<&str> = digits.as_bytes().rchunks(3).rev().flat_map(std::str::from_utf8).collect();
    groups.join(",")
}

/// How many cards are done, now and then: on a terminal in one line that is renewed, else in lines.
struct Progress {
    start: Instant,
    shown: Instant,
    renews: bool,
}

impl Progress {
    fn new() -> Self {
        let now = Instant::now();
        Progress { start: now, shown: now, renews: io::stderr().is_terminal() }
    }

    fn show(&mut self, count: usize, report: &Report) {
        let pause = Duration::from_millis(if self.renews { 200 } else { 10_000 });
        if self.shown.elapsed() < pause {
            return;
        }
        self.shown = Instant::now();
        let (done, seconds) = (grouped(report.cases), self.start.elapsed().as_secs());
        let line = format!("{done} of {}, {} differ, {seconds} s", grouped(count), grouped(report.differ));
        let _ = match self.renews {
            true => write!(io::stderr(), "\r{line}"),
            false => writeln!(io::stderr(), "{line}"),
        };
    }

    fn end(self) {
        without_progress(&mut io::stderr().lock());
    }
}

/// Takes the line away that is renewed.
fn without_progress(errors: &mut StderrLock) {
    if errors.is_terminal() {
        let _ = write!(errors, "\r{:70}\r", "");
    }
}

/// Where comparing a card panics, one line says which card it is, and the program ends.
fn name_on_panic() {
    let usual = panic::take_hook();
    panic::set_hook(Box::new(move |panicked| {
        let Some(name) = current::name() else { return usual(panicked) };
        let line = format!("{name}: the comparison {panicked}").replace('\n', " ");
        // Locked to the end, so that no other thread has a line behind this one.
        let mut errors = io::stderr().lock();
        without_progress(&mut errors);
        let _ = writeln!(errors, "compare: {}", on_one_line(&line));
        process::exit(3)
    }));
}

fn compare_random(count: usize, seed: u64) -> Report {
    let mut progress = Progress::new();
    let report = at_random::compare(WAYS, seed, count, |report| progress.show(count, report));
    progress.end();
    for (number, operation, difference) in &report.differences {
        say(format_args!("card {} of seed {seed}, {}: {difference}", number + 1, operation.word()));
    }
    let numbers = report.numbers();
    let accepted = numbers.get(&0).copied().unwrap_or(0);
    let refused: usize = numbers.range(1..).map(|(_, count)| count).sum();
    let each: Vec<String> =
        numbers.range(1..).map(|(number, &count)| format!("{} by {number}", grouped(count))).collect();
    say(format_args!(
        "{} cards compared by both operations, seed {seed}: {} differ ({} answers accepted, {} refused: {})",
        grouped(count),
        grouped(report.differ),
        grouped(accepted),
        grouped(refused),
        each.join(", ")
    ));
    report
}

/// What comes of the cases of a file.
fn compare_file(name: &str, cases: Vec<Case>) -> Result<Report, String> {
    within_limits(name, &cases)?;
    let report = compare_all(name, WAYS, cases);
    report.lines(name, WAYS).iter().for_each(say);
    Ok(report)
}

fn compare_vectors(folder: &OsStr) -> Result<Vec<Report>, String> {
    let folder = folder.to_str().ok_or_else(|| format!("{} is no name in UTF-8", folder.display()))?;
    let mut reports = Vec::new();
    for text::File { name, changed, vectors, .. } in text::folder(folder)? {
        say(format_args!(
            "{name}: {} lines, {changed} of them answered otherwise by a later file",
            vectors.len()
        ));
        reports.push(compare_file(&name, vectors.into_iter().map(Case::of_vector).collect())?);
    }
    Ok(reports)
}

/// Cases kept before.
fn compare_kept(file: &OsStr) -> Result<Report, String> {
    let name = file.to_string_lossy();
    let lines = fs::read_to_string(file).map_err(|e| unread(file, e))?;
    let forms = format!("{}; the answer may be left out", text::FORMS);
    let of_line = |(i, line): (usize, &str)| {
        Case::of_line(line).ok_or_else(|| format!("{name}: line {} is no case: {forms}", i + 1))
    };
    let cases = lines.lines().enumerate().map(of_line).collect::<Result<Vec<_>, _>>()?;
    match cases.is_empty() {
        true => Err(format!("{name} has no case: write {forms}")),
        false => compare_file(&name, cases),
    }
}

fn unwritten(file: &OsStr, e: io::Error) -> String {
    format!("{} can't be written: {e}", file.display())
}

/// Whether a file can be written, before much time goes into what it should hold.
fn can_keep(file: &OsStr) -> Result<(), String> {
    let opened = fs::OpenOptions::new().append(true).create(true).open(file);
    opened.map(drop).map_err(|e| unwritten(file, e))
}

/// Nothing that was kept before stays.
fn keep(file: &OsStr, reports: &[Report]) -> Result<(), String> {
    let differences = reports.iter().flat_map(|report| &report.differences);
    let lines: String = differences.map(|(_, _, difference)| format!("{}\n", difference.line)).collect();
    fs::write(file, lines).map_err(|e| unwritten(file, e))
}

/// Whether nothing differs, or what is wrong with what was asked.
fn run(asked: &Asked) -> Result<bool, String> {
    asked.keep.as_deref().map_or(Ok(()), can_keep)?;
    let mut reports = Vec::new();
    if let Some(folder) = &asked.vectors {
        reports.extend(compare_vectors(folder)?);
    }
    if let Some(file) = &asked.file {
        reports.push(compare_kept(file)?);
    }
    let others = asked.vectors.is_some() || asked.file.is_some();
    if !others || asked.count.is_some() || asked.seed.is_some() {
        reports.push(compare_random(asked.count.unwrap_or(COUNT), asked.seed.unwrap_or(SEED)));
    }
    if let Some(file) = &asked.keep {
        keep(file, &reports)?;
    }
    Ok(reports.iter().all(|report| report.differ == 0))
}

fn main() -> ExitCode {
    let asked = Asked::of(std::env::args_os().skip(1));
    if asked.as_ref().is_ok_and(|asked| asked.help) {
        say(USAGE);
        return ExitCode::SUCCESS;
    }
    name_on_panic();
    match asked.and_then(|asked| run(&asked)) {
        Ok(true) => ExitCode::SUCCESS,
        Ok(false) => ExitCode::FAILURE,
        Err(e) => {
            let _ = writeln!(io::stderr(), "compare: {}", on_one_line(&e));
            ExitCode::from(2)
        }
    }
}
