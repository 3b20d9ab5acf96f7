//! Damaged cards and texts: every command answers, and in the library's words.

mod common;

use card::{make, records};
use common::{damaged, damaged_card, run, sound_card, text_of, through_every_command, Draws};
use std::time::Instant;
use vegashol::{Reason, Refusal};

/// What the library finds wrong with a card in reading.
fn of_library(card: &[u8]) -> Option<Refusal> {
    let mut out = vec![0; vegashol::MOST_TIMES * card.len().min(vegashol::MOST_CARD)];
    let mut work = vec![0; vegashol::MOST_WORK];
    let refusal = vegashol::shorten_work(card, vegashol::CRATE, &mut out, &mut work).err();
    refusal.filter(|refusal| refusal.reason != Reason::FullTable)
}

#[test]
fn the_reader_refuses_what_the_library_refuses() {
    let mut draws = Draws::new(2);
    let mut reasons = Vec::new();
    for _ in 0..12_000 {
        let card = if draws.once_in(8) { sound_card(&mut draws) } else { damaged_card(&mut draws) };
        let refusal = records::read(&card).refusal;
        assert_eq!(refusal, of_library(&card));
        reasons.push(refusal.map(|refusal| refusal.reason));
    }
    for reason in [Reason::ShortRecord, Reason::WrongKind, Reason::TooDeep, Reason::LeftOver, Reason::NoName]
    {
        assert!(reasons.contains(&Some(reason)), "{reason:?} never came");
    }
}

/// At the limits of depth and length, on both sides.
#[test]
fn limits() {
    for (many, reason) in [(42, None), (43, None), (44, Some(Reason::TooDeep)), (60, Some(Reason::TooDeep))] {
        let mut node = records::Node::branch(0, 0x20, vec![]);
        for _ in 0..many {
            node = records::Node::branch(0, 0x2F, vec![node]);
        }
        let card = of_type(node).to_bytes();
        assert_eq!(records::read(&card).refusal, of_library(&card));
        assert_eq!(records::read(&card).refusal.map(|refusal| refusal.reason), reason, "{many}");
        through_every_command(&card);
    }
    for (length, reason) in [(32_700, None), (32_768, None), (32_769, Some(Reason::LongCard))] {
        let mut module = of_type(records::Node::leaf(0, 0x20, &[]));
        let rest = length - module.to_bytes().len();
        module.kids[0] = records::Node::leaf(0, 1, vec![b'x'; rest]);
        let card = module.to_bytes();
        assert_eq!(card.len(), length);
        assert_eq!(records::read(&card).refusal, of_library(&card));
        assert_eq!(records::read(&card).refusal.map(|refusal| refusal.reason), reason);
        through_every_command(&card);
    }
}

/// A module with one constant of the type.
fn of_type(node: records::Node) -> records::Node {
    let text = |bytes: &'static [u8]| records::Node::leaf(0, 1, bytes);
    let kept = || records::Node::leaf(0, 3, &[]);
    let value = records::Node::branch(0, 0x40, vec![text(b"")]);
    let constant = records::Node::branch(0, 0x72, vec![text(b""), kept(), text(b"k"), node, value]);
    let declaration = records::Node::branch(0, 0x65, vec![constant]);
    let body = records::Node::branch(0, 2, vec![declaration]);
    records::Node::branch(0, 0x60, vec![text(b""), kept(), text(b"m"), body])
}

#[test]
fn a_full_table_is_marked_at_its_module() {
    let externs: String = (0..1_025).map(|i| format!("extern mod a{i};\n")).collect();
    let card = make::make(format!("mod m {{ mod full {{ {externs} }} }}").as_bytes()).expect("a sound card");
    let answer = run(&["shorten", "-"], &card);
    assert_eq!(answer.status, 1);
    assert!(answer.errors.starts_with("card: standard input: refused, full table (8) at byte 37: "));
    let out = String::from_utf8(answer.out).expect("ASCII");
    let lines: Vec<&str> = out.lines().collect();
    assert_eq!(lines[1], "    mod full {");
    assert!(lines[2].starts_with("    ^ full table (8) at byte 37: "), "{}", lines[2]);
    assert_eq!(lines.len(), 1_025 + 5);
}

#[test]
fn damaged_cards_through_every_command() {
    let mut draws = Draws::new(3);
    for _ in 0..4_000 {
        through_every_command(&damaged_card(&mut draws));
    }
}

/// What `show` prints is the text that `make` takes, and with offsets the same behind them.
#[test]
fn shown_is_what_make_takes() {
    let mut draws = Draws::new(6);
    for _ in 0..500 {
        let card = sound_card(&mut draws);
        let text = text_of(&card);
        let shown = run(&["show", "-"], &card).out;
        assert!(shown == text.as_bytes());
        assert!(run(&["make", "-"], &shown).out == card);
        let with_offsets = String::from_utf8(run(&["show", "-", "--bytes"], &card).out).expect("ASCII");
        for (line, other) in text.lines().zip(with_offsets.lines()) {
            assert_eq!(other[7..], *line);
            let at: Option<usize> = other[..7].trim().parse().ok();
            assert!(at.is_some_and(|at| at < card.len()) || line.trim() == "}", "{other}");
        }
    }
}

fn damaged_text(draws: &mut Draws) -> Vec<u8> {
    let text = text_of(&sound_card(draws));
    damaged(draws, text.as_bytes())
}

#[test]
fn damaged_texts_through_make() {
    let mut draws = Draws::new(4);
    let mut made = 0;
    for _ in 0..6_000 {
        let text = damaged_text(&mut draws);
        let answer = run(&["make", "-"], &text);
        common::is_plain(&answer);
        if answer.status == 0 {
            made += 1;
            assert_eq!(records::read(&answer.out).refusal, None);
        }
    }
    assert!(made > 0);
}

/// Text that never ends going deeper.
#[test]
fn endless_texts() {
    let before = "mod m { const k: u8 = ";
    for (start, again) in [
        ("", "mod a { "),
        (before, "("),
        (before, "!"),
        (before, "{ "),
        (before, "<"),
        (before, "return "),
        (before, "f("),
        (before, "|x: "),
        (before, "'a: "),
        ("mod m { const k: ", "&"),
        ("mod m { const k: ", "F<"),
        ("mod m { const k: ", "("),
        ("mod m { const k: ::a", "::a"),
        ("mod m { const k: u8", "<u8>"),
        ("mod m { const k: u8 = a", ".b"),
        ("mod m { const k: u8 = a", "()"),
        ("mod m { const k: u8 = { a", "; a"),
        ("mod m { const k: u8 = (", "a, "),
        ("mod m { impl X { ", "raw \"\"; "),
    ] {
        for count in [30, 60, 400, 20_000] {
            let text = format!("{start}{}", again.repeat(count));
            let answer = run(&["make", "-"], text.as_bytes());
            common::is_plain(&answer);
            assert_eq!(answer.status, 1);
        }
    }
}

/// Run by hand: `cargo test --release -- --ignored --nocapture`.
#[test]
#[ignore]
fn a_hundred_thousand_damaged_files() {
    let (seed, count) = (20, 100_000);
    let mut draws = Draws::new(seed);
    let start = Instant::now();
    let mut sound = 0;
    for i in 0..count {
        let file = match i % 5 {
            0 => damaged_text(&mut draws),
            _ => damaged_card(&mut draws),
        };
        sound += records::read(&file).refusal.is_none() as usize;
        through_every_command(&file);
    }
    println!("{count} damaged files (seed {seed}), {sound} of them still sound, in {:.0?}", start.elapsed());
}
