//! The header, by programs in C that are compiled, linked with the proved library and run.
mod records;

use records::card;
use std::{
    env,
    io::Write,
    path::{Path, PathBuf},
    process::{Command, Output, Stdio},
};
use vegashol::{Listed, Mark, Refusal, Shortened, CRATE, LEAST_WORK};

fn folder() -> PathBuf {
    Path::new(env!("CARGO_MANIFEST_DIR")).to_path_buf()
}

fn compiled(source: &str) -> PathBuf {
    let program = Path::new(env!("CARGO_TARGET_TMPDIR")).join(source.replace('/', "_"));
    let compiler = env::var_os("CC").unwrap_or_else(|| "cc".into());
    let status = Command::new(compiler)
        .args(["-std=c99", "-Wall", "-Wextra", "-pedantic", "-Werror", "-I"])
        .arg(folder().join("../include"))
        .arg(folder().join(source))
        .arg(Path::new(env!("VEGASHOL_FOLDER")).join("libconsole.a"))
        .arg("-o")
        .arg(&program)
        .status()
        .expect("a C compiler runs");
    assert!(status.success(), "{source} is not compiled");
    program
}

fn run(program: &Path, input: &[u8]) -> Output {
    let mut child = Command::new(program)
        .stdin(Stdio::piped())
        .stdout(Stdio::piped())
        .stderr(Stdio::piped())
        .spawn()
        .expect("the program starts");
    child.stdin.take().expect("it is piped").write_all(input).expect("the program reads");
    child.wait_with_output().expect("the program ends")
}

#[test]
fn the_example_shortens_and_refuses() {
    let program = compiled("examples/shorten.c");
    let mut out = [0; 1000];
    let shortened = vegashol::shorten(&card(), CRATE, &mut out).unwrap();
    let ran = run(&program, &card());
    assert!(ran.status.success());
    assert_eq!(ran.stdout, shortened.output);
    let ran = run(&program, &[2, 0, 0, 0, 0x60, 0]);
    assert_eq!((ran.status.code(), ran.stderr), (Some(1), b"refused 4 at 6\n".to_vec()));
}

/// What is lent to a call, as `calls.c` lends it.
#[derive(Clone)]
struct Lent {
    out: [u8; 1000],
    work: [u32; LEAST_WORK],
    list: [u32; 100],
}

/// The output's length and how many places are listed, where a list is lent.
type Answer = Result<(usize, Option<usize>), Refusal>;

const FILLED: u32 = 0xAAAA_AAAA;

fn lent() -> Lent {
    Lent { out: [0xAA; 1000], work: [FILLED; LEAST_WORK], list: [FILLED; 100] }
}

/// What `calls.c` writes of a call.
fn told(answer: Answer, lent: &Lent) -> Vec<u8> {
    let (packed, entries) = match answer {
        Ok((length, entries)) => (length as u64, entries.map_or(FILLED, |n| n as u32)),
        Err(refusal) => ((refusal.number() as u64) << 32 | refusal.place as u64, FILLED),
    };
    let mut told = packed.to_ne_bytes().to_vec();
    told.extend(lent.out);
    told.extend(lent.work.iter().flat_map(|word| word.to_ne_bytes()));
    told.extend(lent.list.iter().flat_map(|word| word.to_ne_bytes()));
    told.extend(entries.to_ne_bytes());
    told
}

fn plain(answer: Result<Shortened, Refusal>) -> Answer {
    answer.map(|shortened| (shortened.output.len(), None))
}

fn with_list(answer: Result<Listed, Refusal>) -> Answer {
    answer.map(|listed| (listed.output.len(), Some(listed.places.len())))
}

#[test]
fn every_call_answers_in_c_as_in_rust() {
    let program = compiled("tests/calls.c");
    for card in [card(), card()[1..].to_vec(), Vec::new()] {
        let mut expected = Vec::new();
        let mut call = |call: &dyn Fn(&mut Lent) -> Answer| {
            let mut lent = lent();
            let answer = call(&mut lent);
            expected.push(told(answer, &lent));
        };
        call(&|l| plain(vegashol::shorten(&card, CRATE, &mut l.out)));
        call(&|l| plain(vegashol::shorten_work(&card, CRATE, &mut l.out, &mut l.work)));
        call(&|l| with_list(vegashol::shorten_places(&card, CRATE, &mut l.out, &mut l.list)));
        call(&|l| {
            with_list(vegashol::shorten_places_work(&card, CRATE, &mut l.out, &mut l.work, &mut l.list))
        });
        call(&|l| plain(vegashol::straight(&card, CRATE, &mut l.out)));
        call(&|l| plain(vegashol::straight_work(&card, CRATE, &mut l.out, &mut l.work)));
        call(&|l| with_list(vegashol::straight_places(&card, CRATE, &mut l.out, &mut l.list)));
        call(&|l| {
            with_list(vegashol::straight_places_work(&card, CRATE, &mut l.out, &mut l.work, &mut l.list))
        });
        let ran = run(&program, &card);
        assert!(ran.status.success());
        let size = expected[0].len();
        assert_eq!(ran.stdout.len(), 8 * size);
        for (number, (in_c, in_rust)) in ran.stdout.chunks(size).zip(&expected).enumerate() {
            assert!(in_c == in_rust, "call {number} of {} bytes", card.len());
        }
    }
}

#[test]
fn the_operations_differ_on_the_card() {
    let (mut out, mut list) = ([0; 1000], [0; 100]);
    let marks = |listed: Listed| listed.places.iter().map(|place| place.mark).collect::<Vec<_>>();
    let old = marks(vegashol::shorten_places(&card(), CRATE, &mut out, &mut list).unwrap());
    assert_eq!(old, [Mark::Use, Mark::Use, Mark::Type, Mark::Expr]);
    let straight = marks(vegashol::straight_places(&card(), CRATE, &mut out, &mut list).unwrap());
    assert_eq!(straight, [Mark::Use, Mark::Type, Mark::Expr]);
}
