//! Cases whose answers are stated, by the Dafny text, document 01 or a request, and not worked out.
use crate::cards::*;
use crate::text::Vector;
use crate::{most_pairs, Answer, Operation, MOST_CARD, WORDS};

pub struct Stated {
    pub what: &'static str,
    pub root: Bytes,
    pub card: Bytes,
    /// How many bytes are lent, how many words, and how many of a list, none where no list is.
    pub out: usize,
    pub words: usize,
    pub lent: Option<usize>,
    pub answer: Answer,
    pub output: Bytes,
    /// The words of the list's entries, where one is lent.
    pub list: Vec<u32>,
}

impl Stated {
    /// As a line of the vectors has it, with its operation or without.
    pub fn vector(self, operation: Option<Operation>) -> Vector {
        let Stated { root, card, out, words, lent, answer, output, list, .. } = self;
        Vector { operation, root, card, out, words, lent, answer, output, list }
    }
}

/// Every case that is stated of an operation.
pub fn all(operation: Operation) -> Vec<Stated> {
    let alike = [limits(), nameless(), traits(), full_tables(), around_limits(), short_lists()];
    let by_operation = [proved_cards, wrong_ports, told_apart, lists].map(|of| of(operation));
    alike.into_iter().chain(by_operation).flatten().collect()
}

const LENT: usize = 65536;

fn m(body: &[Bytes]) -> Bytes {
    module("m", body)
}

/// Under the root crate, without a list.
fn accepted(what: &'static str, card: Bytes, output: Bytes) -> Stated {
    let (root, answer) = (path("crate"), Ok(output.len()));
    Stated { what, root, card, out: LENT, words: WORDS, lent: None, answer, output, list: Vec::new() }
}

fn refused(what: &'static str, card: Bytes, words: usize, number: u32, place: u32) -> Stated {
    let answer = Err((number, place));
    Stated { words, answer, ..accepted(what, card, Bytes::new()) }
}

/// A type or an expression that displays its name and holds what it was.
pub fn wrapped(name: &str, of: Bytes) -> Bytes {
    record(0x37, &[identifier_type(name), of])
}

pub fn short(spelled: &str) -> Bytes {
    wrapped(spelled.rsplit("::").next().unwrap(), ty(spelled))
}

/// Constants k1, k2 of these types.
pub fn constants(types: &[Bytes]) -> Vec<Bytes> {
    let constant = |(i, of): (usize, &Bytes)| constant(format!("k{}", i + 1), of.clone(), raw());
    types.iter().enumerate().map(constant).collect()
}

/// P1 to P10, P14 and P15 of document 01, and an empty card, which both operations answer alike; the others are in `told_apart`.
fn proved_cards(_: Operation) -> Vec<Stated> {
    let nothing = |what, card: Bytes| accepted(what, card.clone(), card);
    let refused = |what, card, number, place| refused(what, card, WORDS, number, place);
    let least = extern_module("a");
    let constants = |types: &[Bytes]| -> Vec<Bytes> {
        let names = ["k1", "k2"].into_iter().zip(types);
        names.map(|(name, of)| constant(name, of.clone(), record(0x40, &[text("")]))).collect()
    };
    let p3 = |uses: &[Bytes], of| m(&[uses, &[implementation(&[], of, &[])]].concat());
    let p6 = |uses: &[Bytes], of| m(&[uses, &constants(&[of, ty("::a::X")])].concat());
    let p7 = |of| p6(&[structure("X", &[], named_fields(&[]))], of);
    let p8 = |uses: &[Bytes], value| m(&[uses, &[constant("k1", bool_type(), value)]].concat());
    vec![
        nothing("P1", least.clone()),
        nothing("P2", m(&[])),
        accepted("P3", p3(&[], ty("::B")), p3(&[use_decl("::B")], short("::B"))),
        Stated { out: 136, ..refused("P4", p3(&[], ty("::B")), 9, 0) },
        nothing("P5", m(&constants(&[ty("::a::X"), ty("::b::X")]))),
        accepted(
            "P6",
            p6(&[], ty("::dafny_runtime::X")),
            p6(&[use_decl("::dafny_runtime::X")], short("::dafny_runtime::X")),
        ),
        accepted("P7", p7(ty("crate::m::X")), p7(short("crate::m::X"))),
        accepted("P8", p8(&[], ex("::a::rd!")), p8(&[use_decl("::a::rd")], record(0x42, &[text("rd!")]))),
        nothing("P9", m(&constants(&[ty("Self::X")]))),
        nothing("P10", m(&[structure("S", &[], named_fields(&[ty("::a::X")]))])),
        refused("P14", vec![2, 0, 0, 0, 0x60, 0], 4, 6),
        refused("P15", [&least[..], &[0]].concat(), 7, 13),
        refused("an empty card", vec![], 4, 0),
    ]
}

/// Where bytes stand first in others.
fn find(bytes: &[u8], of: &[u8]) -> u32 {
    let place = bytes.windows(of.len()).position(|part| part == of);
    place.expect("an output has what is listed of it") as u32
}

/// Lists, their offsets spelled out or found by what should stand there, with as many words as they take.
fn lists(operation: Operation) -> Vec<Stated> {
    let listed = |case: Stated, list: Vec<u32>| {
        let (out, lent) = (case.output.len(), Some(list.len()));
        Stated { out, lent, list, ..case }
    };
    // Heads of Mod and body, three fields of Mod.
    let body = 6 + 6 + (6 + 6 + 7);
    let proved = proved_cards(operation).into_iter().filter(|case| case.answer.is_ok());
    let mut cases: Vec<Stated> = proved
        .map(|case| {
            let at = |of: &[u8]| find(&case.output, of);
            let list = match case.what {
                // Behind the use: heads of ImplDecl and Impl, an empty list.
                "P3" => vec![body, 3, body + 38 + 18, 1],
                "P6" => vec![body, 3, at(&short("::dafny_runtime::X")), 1],
                "P7" => vec![at(&short("crate::m::X")), 1],
                "P8" => vec![body, 3, at(&record(0x42, &[text("rd!")])), 2],
                _ => vec![],
            };
            listed(case, list)
        })
        .collect();
    // The card's own use, which is the same as the one put.
    let with_use = |uses: &[Bytes], value| {
        let rest = [use_decl("::a::rd"), constant("k1", bool_type(), value)];
        m(&[uses, &rest].concat())
    };
    let value = record(0x42, &[text("rd!")]);
    let output = with_use(&[use_decl("::a::rd")], value.clone());
    let list = vec![body, 3, find(&output, &value), 2];
    cases.push(listed(accepted("an own use", with_use(&[], ex("::a::rd!")), output), list));
    // A type in the card's own synonyms, whose display is the same: behind the outer two, a head and an Identifier each.
    let in_own = |of| wrapped("B", wrapped("B", of));
    let output = m(&[&[use_decl("::B")], &constants(&[short("::B"), in_own(short("::B"))])[..]].concat());
    let second = find(&output, &in_own(short("::B"))) + 2 * (6 + 6 + 7);
    let list = vec![body, 3, find(&output, &short("::B")), 1, second, 1];
    cases
        .push(listed(accepted("own synonyms", m(&constants(&[ty("::B"), in_own(ty("::B"))])), output), list));
    // In a Fn the outermost synonym, in a nested module its uses.
    for case in told_apart(operation) {
        let at = |of: &[u8]| find(&case.output, of);
        let of_b = |own: &str, is_prefix: bool| {
            let uses = [own, "::c::Y"].map(|of| (use_decl(of), 3)).into_iter().skip(is_prefix as usize);
            let types = [own, "::c::Y"].map(|of| (short(of), 1));
            uses.chain(types).flat_map(|(of, mark)| [at(&of), mark]).collect()
        };
        let doubled = operation == Operation::Upstream;
        let list = match case.what {
            "P11" | "P12" => vec![body, 3, at(&in_function(operation)), 1],
            "P13" => of_b("crate::m::b::b::X", doubled),
            _ => of_b("crate::m::b::X", !doubled),
        };
        cases.push(listed(case, list));
    }
    cases
}

/// 10 comes after 9, and two words are due for each entry.
fn short_lists() -> Vec<Stated> {
    let of = |uses: &[Bytes], of| m(&[uses, &[implementation(&[], of, &[])]].concat());
    let (card, output) = (of(&[], ty("::B")), of(&[use_decl("::B")], short("::B")));
    let refused = |what, out, words, number| Stated {
        out,
        lent: Some(words),
        ..refused(what, card.clone(), WORDS, number, 0)
    };
    let suffices = |words| Stated {
        out: 137,
        lent: Some(words),
        list: vec![31, 3, 87, 1],
        ..accepted("a list that suffices", card.clone(), output.clone())
    };
    let mut cases = vec![refused("no space, no list", 136, 0, 9), refused("no space", 136, 4, 9)];
    cases.extend([0, 1, 2, 3].map(|words| refused("a short list", 137, words, 10)));
    cases.extend([4, 5, 100].map(suffices));
    cases
}

/// A full table comes before too little room, an outer one before an inner.
fn around_limits() -> Vec<Stated> {
    let refused =
        |what, words, card, number, place| Stated { out: 0, ..refused(what, card, words, number, place) };
    let mut cases = Vec::new();
    for words in [2048, 2052, 2800, 4096, 9999] {
        let most = most_pairs(words);
        // Behind heads of Mod and its body, three more fields of Mod, the head of ModDecl.
        let inner = 6 + 6 + 6 + 7 + 6 + 6;
        // The nested module is one of its parent's pairs.
        let with_nested = |count| m(&[vec![nested(m(&own(300)))], own(count)].concat());
        cases.extend([
            refused("as many pairs as may be", words, m(&own(most)), 9, 0),
            refused("one pair too many", words, m(&own(most + 1)), 8, 0),
            refused("one too many inside", words, m(&[nested(m(&own(most + 1)))]), 8, inner),
            refused("as many beside a module", words, with_nested(most - 1), 9, 0),
            refused("one too many beside a module", words, with_nested(most), 8, 0),
        ]);
    }
    let both = m(&[vec![nested(m(&own(513)))], own(512)].concat());
    cases.push(refused("too many outside and inside", 2048, both.clone(), 8, 0));
    cases.push(refused("enough outside and inside", 2052, both, 9, 0));
    // Too few words come first, however many pairs.
    cases.push(refused("too few words and too many pairs", 2047, m(&own(513)), 1, 0));
    cases
}

/// Document 01, "Run only". The operations answer alike.
pub fn limits() -> Vec<Stated> {
    let long = |size: usize| record(0x61, &[text("a".repeat(size - 12))]);
    let borrowed = |times, of| (0..times).fold(of, |t, _| record(0x2F, &[t]));
    // The path's innermost record stands 8 deeper than there are Borrowed.
    let deep =
        |times, of, uses: &[Bytes]| m(&[uses, &[implementation(&[], borrowed(times, of), &[])]].concat());
    // Ahead of it: heads of Mod, body, ImplDecl, Impl, TypeFromPath and two paths, three fields of Mod, an empty list.
    let innermost = |times: u32| 7 * 6 + (6 + 6 + 7) + 6 + 6 * times;
    let pairs =
        |count: usize| m(&(0..count).map(|i| nested(extern_module(i.to_string()))).collect::<Vec<_>>());
    vec![
        accepted("32,768 bytes", long(MOST_CARD), long(MOST_CARD)),
        refused("32,769 bytes", long(MOST_CARD + 1), WORDS, 2, 0),
        accepted("2,048 words", long(13), long(13)),
        refused("2,047 words", long(13), WORDS - 1, 1, 0),
        accepted("48 deep", deep(40, ty("::a::X"), &[]), deep(40, short("::a::X"), &[use_decl("::a::X")])),
        refused("49 deep", deep(41, ty("::a::X"), &[]), WORDS, 6, innermost(41)),
        accepted("512 pairs", pairs(512), pairs(512)),
        refused("513 pairs", pairs(513), WORDS, 8, 0),
    ]
}

/// So many declarations that have a pair each.
fn own(count: usize) -> Vec<Bytes> {
    (0..count).map(|i| nested(extern_module(brief(i)))).collect()
}

/// What the program shorten is run on, and what it writes: as many pairs as the words that it lends have room for.
pub fn most_names() -> (Bytes, Bytes) {
    let with = |uses: &[Bytes], of| m(&[uses, &[implementation(&[], of, &[])], &own(1023)].concat());
    (with(&[], ty("::B")), with(&[use_decl("::B")], short("::B")))
}

/// Request 5. The operations answer alike.
pub fn full_tables() -> Vec<Stated> {
    let pairs = |count| m(&own(count));
    let in_b = |count| m(&[nested(module("b", &own(count)))]);
    // Path types, of which nothing stays as it was.
    let spelled: Vec<String> = (0..700).map(|i| format!("::{}", brief(i))).collect();
    let of_each = |made: fn(&str) -> Bytes| -> Vec<Bytes> { spelled.iter().map(|of| made(of)).collect() };
    let types = m(&[only_types(&of_each(ty))]);
    let short_types = m(&[of_each(use_decl), vec![only_types(&of_each(short))]].concat());
    let accepted = |what, words, card: Bytes, output| Stated { words, ..accepted(what, card, output) };
    let nothing = |what, words, card: Bytes| accepted(what, words, card.clone(), card);
    let refused = |what, words, card, place| refused(what, card, words, 8, place);
    vec![
        nothing("512 pairs, 4,096 words", 4096, pairs(512)),
        refused("513 pairs, 2,048 words", 2048, pairs(513), 0),
        refused("513 pairs, 2,049 words", 2049, pairs(513), 0),
        refused("513 pairs, 2,051 words", 2051, pairs(513), 0),
        nothing("513 pairs, 2,052 words", 2052, pairs(513)),
        refused("700 pairs, 2,799 words", 2799, types.clone(), 0),
        accepted("700 pairs, 2,800 words", 2800, types, short_types),
        refused("1,024 pairs, 4,095 words", 4095, pairs(1024), 0),
        nothing("1,024 pairs, 4,096 words", 4096, pairs(1024)),
        nothing("1,024 pairs, 8,192 words", 8192, pairs(1024)),
        refused("1,025 pairs, 4,096 words", 4096, pairs(1025), 0),
        refused("1,025 pairs, 4,100 words", 4100, pairs(1025), 0),
        refused("1,025 pairs, 8,192 words", 8192, pairs(1025), 0),
        // Behind heads of Mod and its body, three more fields of Mod, the head of ModDecl.
        refused("513 pairs in a nested module, 2,048 words", 2048, in_b(513), 6 + 6 + 6 + 7 + 6 + 6),
        nothing("513 pairs in a nested module, 2,052 words", 2052, in_b(513)),
    ]
}

/// A function with this result, or with this type as its body.
fn with_result(of: Bytes) -> Bytes {
    top_fn(function("f", &[], &[], list(&[of]), none()))
}

fn with_body(of: Bytes) -> Bytes {
    top_fn(function("f", &[], &[], none(), list(&[record(0x41, &[of])])))
}

/// ::B with one type or expression around it in a Fn.
fn in_function(operation: Operation) -> Bytes {
    match operation {
        Operation::Upstream => wrapped("B", short("::B")),
        Operation::Straight => short("::B"),
    }
}

/// P11, P12 and P13 of document 01, and P13 with the module's true path: the operations answer differently.
pub fn told_apart(operation: Operation) -> Vec<Stated> {
    let borrowed = |of| record(0x2F, &[of]);
    let inside = || in_function(operation);
    let in_b = |body: &[Bytes]| m(&[nested(module("b", body))]);
    let p13 = |what, own: &str, is_prefix: bool| {
        let mut uses = vec![use_decl("::c::Y")];
        if !is_prefix {
            uses.insert(0, use_decl(own));
        }
        let card = in_b(&constants(&[ty(own), ty("::c::Y")]));
        accepted(what, card, in_b(&[uses, constants(&[short(own), short("::c::Y")])].concat()))
    };
    let doubled = operation == Operation::Upstream;
    vec![
        accepted(
            "P11",
            m(&[with_result(borrowed(ty("::B")))]),
            m(&[use_decl("::B"), with_result(borrowed(inside()))]),
        ),
        accepted("P12", m(&[with_body(ty("::B"))]), m(&[use_decl("::B"), with_body(inside())])),
        p13("P13", "crate::m::b::b::X", doubled),
        p13("P13 with the true path", "crate::m::b::X", !doubled),
    ]
}

/// Document 01, "Plausible wrong ports": a card that each would answer otherwise. In straight shortening not one
/// that wraps once in a Fn is wrong, but one that wraps as upstream does.
pub fn wrong_ports(operation: Operation) -> Vec<Stated> {
    let with = |uses: &[&str], rest: &[Bytes]| {
        let uses: Vec<Bytes> = uses.iter().map(|path| use_decl(path)).collect();
        m(&[&uses, rest].concat())
    };
    let field = |rest: &[Bytes]| [&[structure("S", &[], named_fields(&[ty("::a::X")]))], rest].concat();
    let function = |of| [with_result(record(0x2F, &[of]))];
    let wrapping = match operation {
        Operation::Upstream => "wrapped once in a Fn",
        Operation::Straight => "wrapped twice in a Fn",
    };
    vec![
        accepted(
            "uses sorted by name",
            with(&[], &constants(&[ty("::a::Z"), ty("::a::A")])),
            with(&["::a::Z", "::a::A"], &constants(&[short("::a::Z"), short("::a::A")])),
        ),
        accepted(
            "a struct's fields collected",
            with(&[], &field(&constants(&[ty("::b::X")]))),
            with(&["::b::X"], &field(&constants(&[short("::b::X")]))),
        ),
        accepted(
            wrapping,
            with(&[], &function(ty("::B"))),
            with(&["::B"], &function(in_function(operation))),
        ),
        accepted(
            "dafny_runtime ahead of the prefix",
            with(&[], &constants(&[ty("::dafny_runtime::X"), ty("crate::m::X")])),
            with(&[], &constants(&[ty("::dafny_runtime::X"), short("crate::m::X")])),
        ),
        accepted(
            "a synonym's base collected",
            with(&[], &constants(&[wrapped("Y", ty("::a::X")), ty("::b::X")])),
            with(&["::b::X"], &constants(&[wrapped("Y", ty("::a::X")), short("::b::X")])),
        ),
    ]
}

/// Request 4. The operations answer alike.
pub fn nameless() -> Vec<Stated> {
    let borrowed = |times, of| (0..times).fold(of, |t, _| record(0x2F, &[t]));
    let with_type = |of| implementation(&[], of, &[]);
    let of_type = |spelled: &str| m(&[with_type(ty(spelled))]);
    let value = |spelled: &str| m(&[constant("k1", bool_type(), ex(spelled))]);
    let in_field = |of| m(&[structure("S", &[], named_fields(&[of]))]);
    let selected =
        |name: &[Bytes]| m(&[with_type(record(0x2D, &[record(0x13, &[path(""), name.concat()])]))]);
    let refused = |what, card, number, place| refused(what, card, WORDS, number, place);
    let under = |root: &str, case| Stated { root: path(root), ..case };
    // Heads of Mod and its body, three more fields of Mod.
    let body = 6 + 6 + 6 + 7 + 6;
    // Heads of ImplDecl and Impl, an empty list; heads of TypeFromPath and its path; Global. In its stead
    // ::a takes 19 bytes.
    let after_global = body + 6 + 6 + 6 + 6 + 6 + 6;
    let after_a = after_global - 6 + 19;
    // Heads of ConstDecl and Constant, three fields, Bool; heads of ExprFromPath and its path; ::a.
    let in_value = body + 6 + 6 + (6 + 6 + 8) + 6 + 6 + 6 + 19;
    // Heads of UseDecl and Use, a Kept, the path's head; ::a.
    let in_use = body + 6 + 6 + 7 + 6 + 19;
    // Heads of StructDecl and Struct, four fields; heads of NamedFields and its list; a Field's head and
    // its Kept; a Formal's head and its name; heads of TypeFromPath and its path; ::a.
    let field = body + 6 + 6 + (6 + 6 + 7 + 6) + 6 + 6 + 6 + 7 + 6 + 7 + 6 + 6 + 19;
    let bad = || record(0x6B, &[]);
    let ends = |mut card: Bytes| {
        card.push(0);
        card
    };
    let pairs: Vec<Bytes> = (0..513).map(|i: u32| nested(extern_module(i.to_string()))).collect();
    // Three heads each, and their names.
    let of_pairs = 513 * 18 + 10 + 2 * 90 + 3 * 413;
    let own = |value| m(&[constant("!", bool_type(), value)]);
    let marked = || record(0x42, &[text("!!")]);
    let nothing = |what, card: Bytes| accepted(what, card.clone(), card);
    let odd_names = [
        nested(module("", &[])),
        nested(extern_module("!")),
        structure("", &[param("!", none())], named_fields(&[])),
        synonym("!", &[], identifier_type("")),
        constant("", identifier_type("!"), record(0x42, &[text("!")])),
        enumeration("!", &[], &[]),
        trait_(&[], identifier_type(""), none(), &[type_member("!", bool_type())]),
        top_fn(function("!", &[], &[formal("", bool_type())], none(), none())),
    ];
    vec![
        refused("an empty name in a type", of_type("::a::"), 11, after_a),
        refused("a mark alone in a type", of_type("::a::!"), 11, after_a),
        refused("an empty name in an expression", value("::a::"), 11, in_value),
        refused("a mark alone in an expression", value("::a::!"), 11, in_value),
        refused("an empty name in a use", m(&[use_decl("::a::")]), 11, in_use),
        refused("a mark alone in a use", m(&[use_decl("::a::!")]), 11, in_use),
        refused("an empty name in a base", of_type("::::X"), 11, after_global + 6),
        refused("a mark alone in a base", of_type("::!::X"), 11, after_global + 6),
        // Two heads more, and ::a in the third.
        refused("a mark alone deep in a base", of_type("::a::!::b::X"), 11, after_a + 2 * 6),
        refused("a base ahead of its name", of_type("::!::"), 11, after_global + 6),
        refused("a mark alone behind Self", of_type("Self::!"), 11, after_global),
        refused("an empty name in a struct's field", in_field(ty("::a::")), 11, field),
        // Behind the head of the synonym and its display.
        refused("a mark alone in a synonym's base", m(&[with_type(short("::!"))]), 11, after_global + 19),
        // The name stands 7 deeper than there are Borrowed, as does Global ahead of it.
        refused("48 deep", m(&[with_type(borrowed(41, ty("::!")))]), 11, after_global + 41 * 6),
        refused("49 deep", m(&[with_type(borrowed(42, ty("::!")))]), 6, after_global - 6 + 42 * 6),
        refused("a base 49 deep", m(&[with_type(borrowed(41, ty("::a::!")))]), 6, after_global + 41 * 6),
        refused("a Kept for the name", selected(&[kept(b"!")]), 5, after_global),
        refused("an empty Kept for the name", selected(&[kept(&[])]), 5, after_global),
        refused("no Text", selected(&[]), 4, after_global),
        refused("a Text of five bytes", selected(&[vec![2, 0, 0, 0, 1]]), 4, after_global),
        refused("a Text of length 1", selected(&[vec![1, 0, 0, 0, 1, 0]]), 4, after_global),
        refused("a Text past the end", selected(&[vec![3, 0, 0, 0, 1, 0]]), 4, after_global),
        refused("bytes after an empty name", selected(&[text(""), vec![0]]), 11, after_global),
        refused("bytes after a mark alone", selected(&[text("!"), text("a")]), 11, after_global),
        refused("bytes after a name", selected(&[text("a"), vec![0]]), 7, after_global + 7),
        refused("bytes after the card", ends(of_type("::a::!")), 11, after_a),
        refused("a wrong kind after it", m(&[with_type(ty("::a::!")), bad()]), 11, after_a),
        refused("a wrong kind ahead of it", m(&[bad(), with_type(ty("::a::!"))]), 5, body),
        refused("the first of two", m(&[use_decl("::a::!"), with_type(ty("::a::"))]), 11, in_use),
        accepted(
            "two marks in a type",
            of_type("::a::!!"),
            m(&[use_decl("::a::!!"), with_type(short("::a::!!"))]),
        ),
        // Collected without one mark. The use that is put has no name then.
        accepted(
            "two marks in an expression",
            value("::a::!!"),
            m(&[use_decl("::a::!"), constant("k1", bool_type(), marked())]),
        ),
        accepted("two marks, and an own name of one", own(ex("crate::m::!!")), own(marked())),
        nothing("two marks under a base, and an own name of one", own(ex("::a::!!"))),
        nothing("two marks in a use", m(&[use_decl("::!!::!!")])),
        accepted(
            "an empty module name",
            module("", &[with_type(ty("::a::X"))]),
            module("", &[use_decl("::a::X"), with_type(short("::a::X"))]),
        ),
        nothing("an ExternMod with an empty name", extern_module("")),
        nothing("declarations with empty names and marks", module("!", &odd_names)),
        under("crate::", refused("an empty name in the root", extern_module("a"), 3, 0)),
        under("::!", refused("a mark alone in the root", m(&[]), 3, 0)),
        under("crate::!::a", refused("a mark alone in the root's base", m(&[]), 3, 0)),
        under("crate::", refused("no name in root and card", of_type("::a::!"), 3, 0)),
        under(
            "crate::!!",
            accepted(
                "two marks in the root",
                of_type("crate::!!::m::X"),
                m(&[with_type(short("crate::!!::m::X"))]),
            ),
        ),
        Stated { words: WORDS - 1, ..refused("too few words", of_type("::a::!"), 1, 0) },
        refused(
            "too long a card",
            m(&[with_type(ty("::a::!")), nested(extern_module("a".repeat(MOST_CARD)))]),
            2,
            0,
        ),
        under("crate::a::a::a::a::a::a::a::a", refused("a bad root", of_type("::a::!"), 3, 0)),
        refused(
            "a full table",
            m(&[&pairs[..], &[with_type(ty("::a::!"))]].concat()),
            11,
            after_a + of_pairs,
        ),
        Stated { out: 0, ..refused("no space", of_type("::a::!"), 11, after_a) },
        Stated { lent: Some(0), ..refused("a short list", of_type("::a::!"), 11, after_a) },
        Stated { out: 0, lent: Some(1), ..refused("no space, a short list", value("::a::"), 11, in_value) },
    ]
}

/// Document 01, "PathsVisitor": a trait has a name where its type is a TIdentifier or a TypeApp of one. ::a::T stays long beside
/// a trait T, and is shortened where there is none. The operations answer alike.
fn traits() -> Vec<Stated> {
    let t = || identifier_type("T");
    let app = |of| record(0x2E, &[of, none()]);
    let with = |uses: &[Bytes], of: Bytes, constant: Bytes| {
        m(&[uses, &[trait_(&[], of, none(), &[])], &constants(&[constant])].concat())
    };
    let named = |of| {
        let card = with(&[], of, ty("::a::T"));
        accepted("a trait with a name", card.clone(), card)
    };
    let nameless = |of: Bytes| {
        let card = with(&[], of.clone(), ty("::a::T"));
        accepted("a trait without a name", card, with(&[use_decl("::a::T")], of, short("::a::T")))
    };
    let others = [
        app(app(t())),
        wrapped("T", t()),
        app(wrapped("T", t())),
        record(0x2F, &[t()]),
        record(0x38, &[t(), kept(&[]), kept(&[])]),
    ];
    [t(), app(t())].map(named).into_iter().chain(others.map(nameless)).collect()
}

/// The four cases of TestApply: a module, and what it should be with each synonym taken as its display.
pub fn test_apply() -> Vec<(Bytes, Bytes)> {
    let one = |body: &[Bytes]| module("onemodule", body);
    let id = identifier_type;
    let apply = |of: Bytes, to: &[Bytes]| record(0x2E, &[of, list(to)]);
    let t_decl = [param("T", tys(["::dafny_runtime::DafnyType"]))];
    let t_simple = [param("T", list(&[id("DafnyType")]))];
    let test = || apply(id("test"), &[id("T")]);
    let structure = |params: &[Bytes], of| {
        let field = record(0x77, &[kept(&[1]), formal("a", of)]);
        structure("test", params, record(0x75, &[list(&[field])]))
    };
    let first = (
        one(&[
            structure(&t_decl, ty("::std::any::Any")),
            implementation(&t_decl, test(), &[]),
            impl_for(&t_decl, ty("::std::any::Any"), apply(ty("crate::onemodule::test"), &[id("T")]), &[]),
        ]),
        one(&[
            use_decl("::dafny_runtime::DafnyType"),
            use_decl("::std::any::Any"),
            structure(&t_simple, id("Any")),
            implementation(&t_simple, test(), &[]),
            impl_for(&t_simple, id("Any"), test(), &[]),
        ]),
    );
    let second = (
        one(&[impl_for(&t_decl, apply(ty("::dafny_runtime::UpcastObject"), &[id("x")]), test(), &[])]),
        one(&[
            use_decl("::dafny_runtime::DafnyType"),
            use_decl("::dafny_runtime::UpcastObject"),
            impl_for(&t_simple, apply(id("UpcastObject"), &[id("x")]), test(), &[]),
        ]),
    );
    let name = |name: &str| record(0x42, &[text(name)]);
    let call = |of: Bytes, arguments: &[Bytes]| record(0x59, &[of, list(arguments)]);
    // Any, Rc, Default as a type and as an expression, rd!, DafnyString, DafnyType.
    let dummy = |[any, rc, default, default_expr, rd, string, tpe]: [Bytes; 7]| {
        let of = record(0x58, &[name("something"), list(&[record(0x32, &[default])])]);
        let default = call(record(0x5D, &[default_expr, text("default")]), &[]);
        let value = call(of, &[default, call(rd, &[name("obj")])]);
        let declared = [kept(&[0]), text("doit"), list(&[apply(rc, &[id("unknown")])]), list(&[value])];
        let ascribed = record(0x4A, &[record(0x41, &[string]), tpe]);
        constant("dummy", any, record(0x44, &[record(0x4F, &declared), ascribed]))
    };
    let third = (
        one(&[dummy([
            ty("::std::any::Any"),
            ty("::std::rc::Rc"),
            ty("::std::default::Default"),
            ex("::std::default::Default"),
            ex("::dafny_runtime::rd!"),
            ty("::dafny_runtime::DafnyString"),
            ty("::dafny_runtime::DafnyType"),
        ])]),
        one(&[
            use_decl("::std::any::Any"),
            use_decl("::std::rc::Rc"),
            use_decl("::std::default::Default"),
            use_decl("::dafny_runtime::rd"),
            use_decl("::dafny_runtime::DafnyString"),
            use_decl("::dafny_runtime::DafnyType"),
            dummy([
                id("Any"),
                id("Rc"),
                id("Default"),
                name("Default"),
                name("rd!"),
                id("DafnyString"),
                id("DafnyType"),
            ]),
        ]),
    );
    let nothing = || record(0x40, &[text("nothing")]);
    let fourth = |intern| {
        one(&[
            trait_(&[], id("Something"), none(), &[]),
            constant("dummyExtern", ty("crate::anothermodule::Something"), nothing()),
            constant("dummyIntern", intern, nothing()),
        ])
    };
    vec![first, second, third, (fourth(ty("crate::onemodule::Something")), fourth(id("Something")))]
}

#[cfg(test)]
mod tests {
    use super::*;

    /// As the table of the proved cards says.
    #[test]
    fn lengths() {
        let cards = proved_cards(Operation::Upstream);
        let lengths: Vec<_> = cards.iter().map(|case| (case.card.len(), case.answer)).collect();
        let accepted = [(13, 13), (31, 31), (80, 137), (195, 195), (207, 289), (244, 263), (109, 136)];
        let mut due: Vec<_> = accepted.into_iter().map(|(card, output)| (card, Ok(output))).collect();
        due.insert(3, (80, Err((9, 0))));
        due.extend([(100, Ok(100)), (144, Ok(144)), (6, Err((4, 6))), (14, Err((7, 13))), (0, Err((4, 0)))]);
        assert_eq!(lengths, due);
    }
}
