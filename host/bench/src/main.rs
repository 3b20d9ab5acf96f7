//! The console's calls, the proved code, beside others in Rust, by a typed tree and by a walk over bytes with
//! either of two hashes: the same answers, and how fast.
use compare::at_random;
use compare::cards::CRATE;
use compare::case::{within_limits, Case};
use compare::comparison::{compare_all, LONG};
use compare::report::Report;
use compare::text;
use compare::ways::Way;
use compare::{own, tree, Answer, Operation, MOST_CARD, WORDS};
use std::borrow::Borrow;
use std::hint::black_box;
use std::process::ExitCode;
use std::time::{Duration, Instant};
use yardstick::{classes, reader, WAYS};

const USAGE: &str = "\
bench [--vectors VECTORS] [--cards N] [--seed S]
                         every answer, then the time; VECTORS is a folder of files
bench vectors VECTORS    only the answers to vectors
bench random [N [SEED]]  only those to random cards
bench only WAY CLASS TIMES [VECTORS]
                         for a profiler: console, tree, walk or quick over a class,
                         straight shortening if +straight stands behind its name, with a
                         list if +list does
bench reading WAY CLASS TIMES [VECTORS]
                         the same with cards that are only read: console or reader";

const CARDS: usize = 20_000;
const SEED: u64 = 1;
const ROUNDS: usize = 101;
/// In a round each goes over the cards again and again for about so long: short against the turns that the
/// machine gives to other programs.
const TURN: Duration = Duration::from_micros(300);

/// What is lent to the calls that are measured.
struct Room {
    out: Vec<u8>,
    words: Vec<u32>,
    list: Vec<u32>,
}

impl Room {
    /// Enough for these.
    fn new<'c>(classes: impl IntoIterator<Item = &'c Class>) -> Room {
        let (mut out, mut words) = (0, 0);
        for case in classes.into_iter().flat_map(|class| &class.cases) {
            out = out.max(case.out);
            words = words.max(case.words);
        }
        Room { out: vec![0; out], words: vec![0; words], list: vec![0; LONG] }
    }
}

struct Class {
    what: String,
    cases: Vec<Case>,
    /// Whether work words are lent. Else each call brings its own.
    lends: bool,
}

/// Those for which each call brings its own work words.
fn of_classes() -> Vec<Class> {
    // With the out buffer that the program shorten lends.
    let made = |card| Case::new(CRATE.to_vec(), card, 65536, WORDS);
    let one = |what: &str, card| Class { what: what.to_string(), cases: vec![made(card)], lends: false };
    let mut list = vec![one("13 bytes", classes::least()), one("small", classes::small())];
    list.extend([1, 4, 16, 32].map(|k| one(&format!("{k} KB"), classes::typical(k << 10))));
    list.extend([8, 32, 128, 512].map(|n| one(&format!("{n} pairs"), classes::pairs(n))));
    list.push(one("one name", classes::one_name(512)));
    list.push(one("nested", classes::nested_modules(200)));
    list.push(one("crowded", classes::crowded()));
    list.push(one("evicting", classes::evicting(490, 17)));
    list.push(one("colliding", classes::colliding(480)));
    list.push(one("one bucket", classes::searched(512, 9)));
    list.push(one("searched", classes::searched(512, 16)));
    list.push(one("deep types", classes::deep_types(50)));
    list
}

/// Those for which words are lent, as many as the most pairs take.
fn of_lent_classes() -> Vec<Class> {
    let one = |what: &str, card| {
        let case = Case::new(CRATE.to_vec(), card, 4 * MOST_CARD, 4096);
        Class { what: what.to_string(), cases: vec![case], lends: true }
    };
    let paths = [(128, "128 paths"), (512, "512 paths"), (700, "700 paths"), (1024, "1,024 paths")];
    let pairs = [(700, "700 pairs"), (1024, "1,024 pairs")];
    let of_paths = paths.map(|(n, what)| one(what, classes::paths(n)));
    let of_pairs = pairs.map(|(n, what)| one(what, classes::close_pairs(n)));
    // The slowest for their size.
    let slow = [one("800 bases", classes::close_bases(800)), one("8 evicting", classes::evicting(990, 8))];
    of_paths.into_iter().chain(of_pairs).chain(slow).collect()
}

/// A way by an operation, without a list or with one that is long enough.
#[derive(Clone, Copy)]
struct Racer {
    way: &'static Way,
    operation: Operation,
    listed: bool,
}

/// Each way by the old operation without a list, then the first two with one, then these by straight shortening.
fn racers() -> Vec<Racer> {
    let all = |ways: &'static [Way], operation, listed| {
        ways.iter().map(move |way| Racer { way, operation, listed })
    };
    all(WAYS, Operation::Upstream, false)
        .chain(all(&WAYS[..2], Operation::Upstream, true))
        .chain(all(&WAYS[..2], Operation::Straight, false))
        .collect()
}

impl Class {
    fn turn(&self, racer: Racer, passes: usize, room: &mut Room) -> Duration {
        let Room { out, words, list } = room;
        // Cleared before each turn, out of the time, for all alike.
        let lent = self.cases.iter().map(|case| case.out).max().unwrap_or(0);
        out[..lent].fill(0);
        list.fill(0);
        let Racer { way, operation, listed } = racer;
        match listed {
            false => self.time(passes, |case| {
                let words = self.lends.then_some(&mut words[..case.words]);
                let (out, words) = (black_box(&mut out[..case.out]), black_box(words));
                (way.call)(operation, &case.card, &case.root, out, words)
            }),
            true => self.time(passes, |case| {
                let words = self.lends.then_some(&mut words[..case.words]);
                let (out, words) = (black_box(&mut out[..case.out]), black_box(words));
                let list = black_box(&mut list[..]);
                (way.list_call)(operation, &case.card, &case.root, out, words, list, &mut 0)
            }),
        }
    }

    fn time(&self, passes: usize, mut call: impl FnMut(&Case) -> Answer) -> Duration {
        let start = Instant::now();
        for _ in 0..passes {
            for case in &self.cases {
                let _ = black_box(call(black_box(case)));
            }
        }
        start.elapsed()
    }

    /// Microseconds of a card by each racer.
    fn measure(&self, racers: &[Racer], room: &mut Room) -> Vec<f64> {
        medians(self.cases.len(), racers.len(), |i, passes| self.turn(racers[i], passes, room))
    }

    /// How many bytes a card has and how many its output, on an average.
    fn bytes(&self) -> (usize, usize) {
        let output = |case: &Case| {
            let (mut out, words) = (vec![0; case.out], if self.lends { case.words } else { WORDS });
            tree::shorten(Operation::Upstream, &case.card, &case.root, &mut out, words).unwrap_or(0)
        };
        let card: usize = self.cases.iter().map(|case| case.card.len()).sum();
        let output: usize = self.cases.iter().map(output).sum();
        (card / self.cases.len(), output / self.cases.len())
    }

    /// How many pairs its outermost modules have.
    fn pairs(&self) -> f64 {
        let pairs =
            |case: &Case| tree::outermost(&case.card, &case.root, case.words).map_or(0, |m| m.pairs.len());
        self.cases.iter().map(pairs).sum::<usize>() as f64 / self.cases.len() as f64
    }

    /// Its sound cards with a byte behind them: read to their end, and refused there.
    fn only_read(&self, out: &mut [u8]) -> Class {
        let sound = self.cases.iter().filter(|c| reader::admit(&c.card, &c.root, c.words).is_ok());
        let read = sound.filter(|c| c.card.len() < MOST_CARD).map(|c| {
            let mut card = c.card.clone();
            card.push(0);
            Case::new(c.root.clone(), card, c.out, c.words)
        });
        let class = Class { what: self.what.clone(), cases: read.collect(), lends: false };
        for case in &class.cases {
            let due = Err((7, case.card.len() as u32 - 1));
            assert!(READERS.iter().all(|(_, read)| read(case, out) == due), "read otherwise");
        }
        class
    }

    fn read(&self, read: Reader, passes: usize, out: &mut [u8]) -> Duration {
        self.time(passes, |case| read(case, black_box(out)))
    }
}

/// A card that is refused by reading.
type Reader = fn(&Case, &mut [u8]) -> Answer;

const READERS: [(&str, Reader); 2] = [
    (WAYS[0].what, |case, out| {
        (WAYS[0].call)(Operation::Upstream, &case.card, &case.root, &mut out[..case.out], None)
    }),
    ("reader", |case, _| reader::admit(&case.card, &case.root, case.words).map(|()| 0)),
];

/// Microseconds of a card by each of some racers, given what a turn of so many passes takes: the median of the
/// rounds.
fn medians(cards: usize, racers: usize, mut turn: impl FnMut(usize, usize) -> Duration) -> Vec<f64> {
    let passes: Vec<usize> =
        (0..racers).map(|i| 1 + TURN.as_nanos() as usize / (1 + turn(i, 1).as_nanos() as usize)).collect();
    let mut times = vec![Vec::new(); racers];
    for round in 0..ROUNDS {
        // Another goes first each time.
        for i in 0..racers {
            let i = (round + i) % racers;
            times[i].push(turn(i, passes[i]));
        }
    }
    let median = |(mut times, passes): (Vec<Duration>, usize)| {
        times.sort();
        times[ROUNDS / 2].as_secs_f64() * 1e6 / (passes * cards) as f64
    };
    times.into_iter().zip(passes).map(median).collect()
}

/// The columns that both tables share: which class, its bytes, each way's time, and how many times as long as
/// each other way the first takes.
fn print_head() {
    print!("{:11}  {:>8}  {:>9}", "class", "bytes in", "bytes out");
    WAYS.iter().for_each(|way| print!("  {:>8}", way.what));
    WAYS[1..].iter().for_each(|way| print!("  {:>7}", format!("/{}", way.what)));
}

fn print_times(class: &Class, times: &[f64]) {
    let (card, output) = class.bytes();
    print!("{:11}  {card:8}  {output:9}", class.what);
    times.iter().for_each(|time| print!("  {time:8.2}"));
    times[1..].iter().for_each(|time| print!("  {:7.2}", times[0] / time));
}

/// Without words lent.
fn report(classes: &[Class], room: &mut Room) {
    let (first, ratio) = (WAYS[0].what, format!("{}/{}", WAYS[0].what, WAYS[1].what));
    println!("medians of {ROUNDS} rounds: microseconds of a card, then {first}'s over another's;");
    println!(
        "with list: {ratio}, both with a list of places; straight: {ratio}, both by straight shortening"
    );
    print_head();
    println!("  {:>9}  {:>8}", "with list", "straight");
    let racers = racers();
    for class in classes {
        let times = class.measure(&racers, room);
        let (without, rest) = times.split_at(WAYS.len());
        let (with, straight) = rest.split_at(2);
        print_times(class, without);
        println!("  {:9.2}  {:8.2}", with[0] / with[1], straight[0] / straight[1]);
    }
}

/// With words lent, by the old operation without a list.
fn report_lent(classes: &[Class], room: &mut Room) {
    let first = WAYS[0].what;
    println!("with 4,096 words lent: microseconds of a card, then {first}'s over another's;");
    println!("of a pair: nanoseconds of a pair by {first}");
    print_head();
    println!("  {:>9}", "of a pair");
    let racers = &racers()[..WAYS.len()];
    for class in classes {
        let times = class.measure(racers, room);
        print_times(class, &times);
        println!("  {:9.1}", times[0] * 1e3 / class.pairs());
    }
}

/// Reading alone.
fn report_reading(classes: &[Class], out: &mut [u8]) {
    println!("reading: the same cards with a byte behind them, read to their end and refused there");
    print!("{:11}  {:>8}", "class", "bytes in");
    READERS.iter().for_each(|(what, _)| print!("  {what:>9}"));
    println!("  {:>14}", READERS.map(|(what, _)| what).join("/"));
    for class in classes {
        let class = class.only_read(out);
        let bytes: usize = class.cases.iter().map(|c| c.card.len()).sum();
        let times =
            medians(class.cases.len(), READERS.len(), |i, passes| class.read(READERS[i].1, passes, out));
        print!("{:11}  {:8}", class.what, bytes / class.cases.len());
        times.iter().for_each(|time| print!("  {time:9.2}"));
        println!("  {:14.2}", times[0] / times[1]);
    }
}

/// The vectors of one file.
struct Vectors {
    name: String,
    changed: usize,
    cases: Vec<Case>,
}

/// Those of a folder, none where there is no folder.
fn vectors_of(folder: Option<&str>) -> Result<Vec<Vectors>, String> {
    let files = folder.map_or(Ok(Vec::new()), text::folder)?;
    let of_file = |file: text::File| {
        let cases: Vec<Case> = file.vectors.into_iter().map(Case::of_vector).collect();
        within_limits(&file.name, &cases)?;
        Ok(Vectors { name: file.name, changed: file.changed, cases })
    };
    files.into_iter().map(of_file).collect()
}

/// Says what came of cases: whether none differs.
fn agree(what: &str, report: Report) -> bool {
    report.lines(what, WAYS).iter().for_each(|line| println!("{line}"));
    report.differ == 0
}

fn agree_on_all<C: Borrow<Case>>(what: &str, cases: impl IntoIterator<Item = C>) -> bool {
    agree(what, compare_all(what, WAYS, cases))
}

/// The answers to the vectors, file by file: whether none differs.
fn agree_on(files: &[Vectors]) -> bool {
    let mut same = true;
    for Vectors { name, changed, cases } in files {
        println!("{name}: {} lines, {changed} of them answered otherwise by a later file", cases.len());
        same &= agree_on_all(name, cases);
    }
    same
}

fn agree_at_random(cards: usize, seed: u64) -> bool {
    agree("random cards", at_random::compare(WAYS, seed, cards, |_| ()))
}

/// The vectors of document 01 as a class, those that lend fewer work words than the console's call brings left
/// out.
fn as_class(files: Vec<Vectors>) -> Option<Class> {
    let vectors = files.into_iter().next()?;
    let cases: Vec<Case> = vectors.cases.into_iter().filter(|c| c.words >= WORDS).collect();
    (!cases.is_empty()).then(|| Class { what: "vectors".to_string(), cases, lends: false })
}

fn run(folder: Option<&str>, cards: usize, seed: u64) -> Result<bool, String> {
    let vectors = vectors_of(folder)?;
    let (mut classes, lent_classes) = (of_classes(), of_lent_classes());
    let own = own::cases().into_iter().chain(own::differing()).map(Case::of_own);
    let mut same = agree_on(&vectors);
    same &= agree_on_all("own cards", own);
    let all = classes.iter().chain(&lent_classes);
    same &= agree_on_all("classes", all.flat_map(|class| &class.cases));
    same &= agree_at_random(cards, seed);
    if !same {
        println!("nothing is measured");
        return Ok(false);
    }
    classes.extend(as_class(vectors));
    let mut room = Room::new(classes.iter().chain(&lent_classes));
    report(&classes, &mut room);
    report_lent(&lent_classes, &mut room);
    report_reading(&classes, &mut room.out);
    Ok(true)
}

/// A way by its name, with +straight and +list behind it or without them.
fn racer(name: &str) -> Result<Racer, String> {
    let mut words = name.split('+');
    let way = words.next().and_then(|name| WAYS.iter().find(|way| way.what == name)).ok_or("no such way")?;
    let mut racer = Racer { way, operation: Operation::Upstream, listed: false };
    for word in words {
        match word {
            "straight" => racer.operation = Operation::Straight,
            "list" => racer.listed = true,
            _ => return Err(format!("no such way: +{word} is neither +straight nor +list")),
        }
    }
    Ok(racer)
}

/// A class by its name, and room for it.
fn class(name: &str, folder: Option<&str>) -> Result<(Class, Room), String> {
    let classes = of_classes().into_iter().chain(of_lent_classes()).chain(as_class(vectors_of(folder)?));
    let class = { classes }.find(|c| c.what == name).ok_or("no such class")?;
    let room = Room::new([&class]);
    Ok((class, room))
}

fn only(way: &str, name: &str, times: &str, folder: Option<&str>) -> Result<bool, String> {
    let (class, mut room) = class(name, folder)?;
    class.turn(racer(way)?, number(times)?, &mut room);
    Ok(true)
}

fn only_reading(way: &str, name: &str, times: &str, folder: Option<&str>) -> Result<bool, String> {
    let (class, mut room) = class(name, folder)?;
    let (_, reader) = READERS.iter().find(|(what, _)| *what == way).ok_or("no such way")?;
    class.only_read(&mut room.out).read(*reader, number(times)?, &mut room.out);
    Ok(true)
}

fn number<T: std::str::FromStr>(digits: &str) -> Result<T, String> {
    digits.parse().map_err(|_| format!("{digits} is no number"))
}

/// Whether nothing differs, or what is wrong with what was asked.
fn asked(words: &[&str]) -> Result<bool, String> {
    match *words {
        ["--help"] => {
            println!("{USAGE}");
            Ok(true)
        }
        ["vectors", folder] => Ok(agree_on(&vectors_of(Some(folder))?)),
        ["random", ref rest @ ..] if rest.len() <= 2 => {
            let cards = rest.first().map_or(Ok(CARDS), |n| number(n))?;
            let seed = rest.get(1).map_or(Ok(SEED), |n| number(n))?;
            Ok(agree_at_random(cards, seed))
        }
        ["only", way, class, times] => only(way, class, times, None),
        ["only", way, class, times, folder] => only(way, class, times, Some(folder)),
        ["reading", way, class, times] => only_reading(way, class, times, None),
        ["reading", way, class, times, folder] => only_reading(way, class, times, Some(folder)),
        ref options => {
            let (mut folder, mut cards, mut seed) = (None, CARDS, SEED);
            for option in options.chunks(2) {
                match *option {
                    ["--vectors", name] => folder = Some(name),
                    ["--cards", n] => cards = number(n)?,
                    ["--seed", n] => seed = number(n)?,
                    _ => return Err("no such arguments; bench --help says which there are".to_string()),
                }
            }
            run(folder, cards, seed)
        }
    }
}

fn main() -> ExitCode {
    let words: Vec<_> = std::env::args_os().skip(1).collect();
    let words: Vec<_> = words.iter().map(|word| word.to_string_lossy()).collect();
    match asked(&words.iter().map(|word| &**word).collect::<Vec<_>>()) {
        Ok(true) => ExitCode::SUCCESS,
        Ok(false) => ExitCode::FAILURE,
        Err(e) => {
            eprintln!("bench: {e}");
            ExitCode::from(2)
        }
    }
}
