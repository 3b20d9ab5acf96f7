//! `show` and `make` are each other's inverse on every sound card.

mod common;

use card::{kinds, make, records};
use common::{least, sound_card, text_of, Draws, Trees};
use std::collections::HashSet;

fn there_and_back(card: &[u8]) {
    assert_eq!(records::read(card).refusal, None);
    let text = text_of(card);
    let made = make::make(text.as_bytes()).unwrap_or_else(|fault| panic!("{fault:?} in\n{text}"));
    assert!(made == card, "another card is made of\n{text}");
    assert_eq!(text_of(&made), text);
}

#[test]
fn random_cards() {
    let mut draws = Draws::new(1);
    let mut seen = HashSet::new();
    for _ in 0..4_000 {
        let card = sound_card(&mut draws);
        there_and_back(&card);
        kinds_in(&records::read(&card).tree.expect("a sound card has a tree"), &mut seen);
    }
    assert_eq!(seen.len(), kinds::KINDS.len() + 3, "every kind came, beside Text, List and Kept");
}

fn kinds_in(node: &records::Node, seen: &mut HashSet<u16>) {
    seen.insert(node.kind);
    node.kids.iter().for_each(|kid| kinds_in(kid, seen));
}

/// Each kind in the smallest card that has it, many times.
#[test]
fn every_kind() {
    for kind in kinds::KINDS {
        let mut draws = Draws::new(kind.number as u64);
        let mut cards = 0;
        for _ in 0..60 {
            let mut trees = Trees { draws: &mut draws, left: 20, paths: false };
            let node = trees.of_kind(kind.number, least(kind.number) + 6);
            let Some(card) = around(&mut trees, node) else { continue };
            there_and_back(&card.to_bytes());
            cards += 1;
        }
        assert!(cards > 10, "{}: {cards}", kind.name);
    }
}

/// A card with the node in it, by way of whatever has a field for it.
fn around<'a>(trees: &mut Trees, node: records::Node<'a>) -> Option<records::Node<'a>> {
    let mut node = node;
    for _ in 0..12 {
        if node.kind == 0x60 || (node.kind == 0x61 && trees.draws.once_in(2)) {
            return Some(node);
        }
        let fits: Vec<(u16, usize)> = kinds::KINDS
            .iter()
            .filter(|kind| kind.number > 0x13)
            .flat_map(|kind| kind.fields.iter().enumerate().map(|(i, field)| (kind.number, i, field.what)))
            .filter(|(_, _, what)| what.class().has(node.kind))
            .map(|(kind, i, _)| (kind, i))
            .collect();
        let (kind, i) = fits[trees.draws.below(fits.len())];
        let mut parent = trees.of_kind(kind, least(kind) + 3);
        let field = &kinds::rule(kind)?.kind.fields[i];
        match field.shape {
            kinds::Shape::One => parent.kids[i] = node,
            _ => parent.kids[i] = records::Node::branch(0, kinds::LIST, vec![node]),
        }
        node = parent;
    }
    None
}

#[test]
fn the_example() {
    let text = include_str!("../examples/finale.txt");
    let card = make::make(text.as_bytes()).expect("the example's text");
    assert_eq!(text_of(&card), text);
}

/// What Rust would write otherwise, and what needs its quotes or parentheses.
#[test]
fn spelled_so() {
    for line in [
        "extern mod a;",
        "mod \"mod\" {}",
        "doc \"a\\x0A\\\"b\\\"\"\nattr #\"cfg(test)\"\nmod m {}",
        "mod m {\n    vis #02 use Self::a::rd!;\n    use ::;\n    pub use crate;\n}",
        "mod m {\n    const k: (&T)<u8> = (a; b);\n}",
        "mod m {\n    const k: &F<u8, (A, B), (C,), ()> = (!a).b;\n}",
        "mod m {\n    const k: Fn(A) -> [u8; N] = (return).x((a; b), c);\n}",
        "mod m {\n    const k: (A + (B := dyn ::C)) = { a; (b; c); d };\n}",
        "mod m {\n    const k: meta(T, #01, #\"\") = (::a::X)::f::<T>(&mut x)[0];\n}",
        "mod m {\n    const k: \"Self\" = ((let x) = y);\n}",
        "mod m {\n    const k: [u8] = if (return) { a } else { if !b { c } else { raw \"\" } };\n}",
        "mod m {\n    const k: u8 = |x: u8, y: &mut T| -> bool { (x && #01 (y as u8)) };\n}",
        "mod m {\n    const k: u8 = match <T as ::U> { #\"A | B\" => 1, #00 => literal \"-1\" };\n}",
        "mod m {\n    const k: u8 = 'a: loop while (x op \"<=>\" 2) { break 'a; continue };\n}",
        "mod m {\n    const k: u8 = str binary verbatim #02 \"<b>\";\n}",
        "mod m {\n    const k: u8 = struct <F<T>> { a: true, b: bool #05 };\n}",
        "mod m {\n    const k: u8 = for i in (0 .. n) { set #\"x\" = i };\n}",
        "mod m {\n    trait<T> X<T>: A + B {\n        raw \"x\";\n        type Y = Z;\n        macro a!(1);\n    }\n}",
        "mod m {\n    struct S<T: A + B, U>(pub u8, U)\n    enum E {\n        A(),\n        B { x: u8 },\n    }\n}",
        "mod m {\n    pub fn f<T>(x: T) -> T { let #01 y: T = x; y }\n    fn g()\n}",
    ] {
        let text = format!("{line}\n");
        let card = make::make(text.as_bytes()).unwrap_or_else(|fault| panic!("{fault:?} in {text}"));
        assert_eq!(text_of(&card), text);
    }
}

/// The line and column of what is wrong, and what is.
#[test]
fn wrong_lines() {
    for (text, line, column, what) in [
        ("", 1, 1, "a module, `mod` or `extern mod`, is due here, and the text ends"),
        ("mod m {\n  const k: = 1;\n}", 2, 12, "a type is due here, and not `=`"),
        ("mod m {\n  const k: u8 = ;\n}", 2, 17, "an expression is due here, and not `;`"),
        ("mod m {\n  const k: u8 = 1\n}", 3, 1, "`;` is due here, and not `}`"),
        ("mod m {\n  blob X;\n}", 2, 3, "a declaration is due here, and not `blob`"),
        ("mod m {\n  pub struct S {}\n}", 2, 3, "`pub` may not stand ahead of `struct`"),
        (
            "mod m {\n  pub doc \"a\" fn f()\n}",
            2,
            7,
            "`doc` may not stand here: first comes `doc`, then `attr`, then `pub`",
        ),
        (
            "mod m {\n  vis #02 attr #01 fn f()\n}",
            2,
            11,
            "`attr` may not stand here: first comes `doc`, then `attr`, then `pub`",
        ),
        (
            "mod m {\n  impl A {\n    const k: u8 = 1;",
            3,
            5,
            "a member (`fn`, `type`, `macro` or `raw`) is due here, and not `const`",
        ),
        ("mod mod {}", 1, 5, "`mod` is a word of the notation; as a name it is \"mod\""),
        ("mod \"a", 1, 5, "this text has no closing quote on its line"),
        ("mod \"\\y\" {}", 1, 6, "behind `\\` is due `\"`, `\\` or `x` and two hexadecimal digits"),
        ("mod \"\u{e9}\" {}", 1, 6, "this byte is not printable ASCII: write `\\xC3`"),
        ("mod \u{e9} {}", 1, 5, "a name is due here, and not `\\xC3`"),
        ("mod m {} x", 1, 10, "the end of the text is due here"),
        ("attr #1 mod m {}", 1, 7, "behind `#` are due pairs of hexadecimal digits, or a text in quotes"),
        (
            "mod m {\n  use ::a::\"!\";\n}",
            2,
            12,
            "refused, no name (11): the name that a path selects here is empty or '!' alone",
        ),
        ("mod m { impl <T> X for Y Z }", 1, 26, "`{` is due here, and not `Z`"),
        ("mod m { const k: u8 = (a; b, c); }", 1, 28, "`)` is due here, and not `,`"),
        ("mod m { const k: u8 = (a; b + c); }", 1, 29, "`)` is due here, and not `+`"),
        (
            "mod m { const k: u8 = crate::a\n  ::b; }",
            2,
            3,
            "no blank may stand in a path, and a function is selected as in `(::a::X)::f`",
        ),
        ("mod m { impl X z }", 1, 16, "`for` or `{` is due here, and not `z`"),
    ] {
        let fault = make::make(text.as_bytes()).expect_err(text);
        assert_eq!((fault.line, fault.column, fault.what.as_str()), (line, column, what));
    }
}

/// A text of a card that is no sound one is refused at the line that makes it so.
#[test]
fn unsound_texts() {
    let types = format!("mod m {{\n  const a: u8 = 1;\n  const b: {}u8 = 1;\n}}", "&".repeat(44));
    let fault = make::make(types.as_bytes()).expect_err("too deep");
    assert_eq!(fault.line, 3);
    assert!(fault.what.starts_with("refused, too deep (6): "), "{}", fault.what);
    let long: String = (0..800).map(|i| format!("  const a{i}: u8 = 1;\n")).collect();
    let fault = make::make(format!("mod m {{\n{long}}}").as_bytes()).expect_err("too long");
    assert!(fault.what.starts_with("refused, long card (2): "), "{}", fault.what);
    assert!((400..800).contains(&fault.line), "{}", fault.line);
}

/// The first block under "The notation" in README.
#[test]
fn the_readme() {
    let readme = include_str!("../README.md");
    let notation = readme.split("## The notation").nth(1).expect("README tells the notation");
    let block =
        notation.lines().skip_while(|line| !line.starts_with("    ")).take_while(|line| !line.is_empty());
    let text: String = block.map(|line| format!("{}\n", &line[4..])).collect();
    let card = make::make(text.as_bytes()).expect("README's text");
    assert_eq!(text_of(&card), text);
}
