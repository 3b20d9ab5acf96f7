//! Cards and texts as if drawn, the same each time.
#![allow(dead_code)]

use card::kinds::{self, rule, Class, Keeping, Shape, Spelling, What, KINDS};
use card::records::{self, Node, MOST_DEPTH};
use card::show::{self, Look, INDENT};

pub struct Draws(u64);

impl Draws {
    pub fn new(seed: u64) -> Draws {
        Draws(seed.wrapping_mul(0x9E37_79B9_7F4A_7C15) | 1)
    }

    pub fn next(&mut self) -> u64 {
        self.0 ^= self.0 << 13;
        self.0 ^= self.0 >> 7;
        self.0 ^= self.0 << 17;
        self.0.wrapping_mul(0x2545_F491_4F6C_DD1D) >> 16
    }

    pub fn below(&mut self, n: usize) -> usize {
        (self.next() % n as u64) as usize
    }

    pub fn of<'a, T: ?Sized>(&mut self, all: &[&'a T]) -> &'a T {
        all[self.below(all.len())]
    }

    /// Once in so many times.
    pub fn once_in(&mut self, n: usize) -> bool {
        self.below(n) == 0
    }
}

const NAMES: &[&[u8]] =
    &[b"a", b"b", b"m", b"X", b"Y", b"Cue", b"self", b"dafny_runtime", b"rd!", b"r#mod", b"_"];
const ODD: &[&[u8]] = &[
    b"mod",
    b"Self",
    b"crate",
    b"u8",
    b"Fn",
    b"match!",
    b"op",
    b"pub",
    b"7",
    b"5u8",
    b"a b",
    b"a!!",
    b"!!",
    b"\"",
    b"\\",
    b"\x1b[31mred",
    b"\xe2\x80\xae",
    b"<script>alert(1)</script>",
    b"a\nb",
    b"\0",
    b"\xff",
    b"::",
    b"#01",
    b"//",
    b"'",
    b"-5",
    b"&amp;",
    b"r#",
    b"r#7",
    b"\xd0\xb0",
];
const OPERATORS: &[&[u8]] = &[
    b"+", b"-", b"!", b"&", b"&mut", b"&&", b"<", b"<<", b">>=", b"..", b"=", b"*", b"**", b"", b"as", b"|",
];
const KEPT: &[&[u8]] =
    &[b"", b"", b"\0", b"\x01", b"\x01", b"\x02", b"Some(x)", b"\x01\0\xff", b"a", b"\"\\"];

/// Random trees of every kind.
pub struct Trees<'d> {
    pub draws: &'d mut Draws,
    /// About how many records may still come.
    pub left: usize,
    /// Many paths of few names.
    pub paths: bool,
}

impl Trees<'_> {
    fn text(&mut self, spelling: Spelling) -> Vec<u8> {
        if self.paths && spelling == Spelling::Name {
            return self.draws.of(NAMES).to_vec();
        }
        let plain = match spelling {
            Spelling::Unary | Spelling::Binary => self.draws.of(OPERATORS),
            Spelling::Number | Spelling::Size => self.draws.of(&[b"0" as &[u8], b"42", b"0x1F", b"N"]),
            Spelling::Doc | Spelling::Quoted => self.draws.of(&[b"" as &[u8], b"", b"Go", b"says \"go\""]),
            Spelling::Name => self.draws.of(NAMES),
        };
        match self.draws.below(12) {
            0 => self.draws.of(ODD).to_vec(),
            1 if self.draws.once_in(4) => (0..self.draws.below(6)).map(|_| self.draws.next() as u8).collect(),
            2 if self.draws.once_in(4) => Vec::new(),
            _ => plain.to_vec(),
        }
    }

    fn kept(&mut self, keeping: Keeping) -> Vec<u8> {
        match keeping {
            Keeping::Attributes | Keeping::Unless if !self.draws.once_in(6) => Vec::new(),
            Keeping::Visibility | Keeping::Flag(_) | Keeping::Truth if !self.draws.once_in(6) => {
                vec![self.draws.below(2) as u8]
            }
            _ => self.draws.of(KEPT).to_vec(),
        }
    }

    /// Of a class, no deeper than so.
    pub fn node(&mut self, class: Class, depth: usize) -> Node<'static> {
        self.left = self.left.saturating_sub(1);
        let kind = self.kind(class, depth);
        self.of_kind(kind, depth)
    }

    /// One that fits in the depth, and a small one where few are left.
    fn kind(&mut self, class: Class, depth: usize) -> u16 {
        if self.paths && class == kinds::PATH && depth > 2 && !self.draws.once_in(3) {
            return kinds::MEMBER;
        }
        if self.paths && self.left > 0 && depth > 4 && self.draws.once_in(2) {
            match class {
                kinds::TYPE => return 0x2D,
                kinds::EXPR => return kinds::EXPR_FROM_PATH,
                _ => {}
            }
        }
        let kinds: Vec<u16> = (class.first..=class.last).filter(|kind| least(*kind) <= depth).collect();
        let small: Vec<u16> = kinds.iter().copied().filter(|kind| least(*kind) <= 4).collect();
        if self.left == 0 && !small.is_empty() {
            return small[self.draws.below(small.len())];
        }
        kinds[self.draws.below(kinds.len())]
    }

    pub fn of_kind(&mut self, kind: u16, depth: usize) -> Node<'static> {
        let fields = rule(kind).expect("a kind with a row").kind.fields;
        let kids = fields.iter().enumerate().map(|(i, field)| {
            let within = depth - 1;
            let one = |trees: &mut Self, within: usize| match field.what {
                What::Text(spelling) => {
                    let mut bytes = trees.text(spelling);
                    if kind == kinds::MEMBER && i == 1 && matches!(&bytes[..], b"" | b"!") {
                        bytes = b"X".to_vec();
                    }
                    Node::leaf(0, kinds::TEXT, bytes)
                }
                What::Kept(keeping) => Node::leaf(0, kinds::KEPT, trees.kept(keeping)),
                What::Of(class) => trees.node(class, within),
            };
            if field.shape == Shape::One {
                return one(self, within);
            }
            let least = match field.what {
                What::Of(class) => least_of(class),
                _ => 1,
            };
            let room = within > least && self.left > 0;
            let count = match field.shape {
                _ if !room => 0,
                Shape::Option => self.draws.below(2),
                _ => self.draws.below(4),
            };
            let items = (0..count).map(|_| one(self, within - 1)).collect();
            Node::branch(0, kinds::LIST, items)
        });
        Node::branch(0, kind, kids.collect())
    }
}

/// How deep a record of the kind is at least.
pub fn least(kind: u16) -> usize {
    thread_local!(static LEAST: Vec<usize> = all_least());
    LEAST.with(|least| least[kind as usize])
}

fn all_least() -> Vec<usize> {
    let mut least = vec![1000; 0x87];
    loop {
        let before = least.clone();
        for kind in KINDS {
            let deepest = kind.fields.iter().map(|field| match (field.shape, field.what) {
                (Shape::One, What::Of(class)) => {
                    *least[class.first as usize..=class.last as usize].iter().min().unwrap()
                }
                _ => 1,
            });
            least[kind.number as usize] = 1 + deepest.max().unwrap_or(0);
        }
        if least == before {
            return least;
        }
    }
}

fn least_of(class: Class) -> usize {
    (class.first..=class.last).map(least).min().unwrap_or(1)
}

/// A sound card; every kind comes in some.
pub fn sound_card(draws: &mut Draws) -> Vec<u8> {
    some_card(draws, false)
}

/// A sound card that has much to shorten.
pub fn card_of_paths(draws: &mut Draws) -> Vec<u8> {
    some_card(draws, true)
}

fn some_card(draws: &mut Draws, paths: bool) -> Vec<u8> {
    loop {
        let left = [3, 10, 40, 200, 1000][draws.below(5)];
        let depth = [9, 12, 20, MOST_DEPTH][draws.below(4)];
        let mut trees = Trees { draws, left, paths };
        let kind = if trees.draws.once_in(12) { 0x61 } else { 0x60 };
        let mut card = trees.of_kind(kind, depth);
        // Some more declarations, so that names meet.
        while kind == 0x60 && trees.left > 0 && !trees.draws.once_in(8) {
            let declaration = trees.node(kinds::DECLARATION, depth - 2);
            card.kids[3].kids.push(declaration);
        }
        let bytes = card.to_bytes();
        if bytes.len() <= vegashol::MOST_CARD {
            return bytes;
        }
    }
}

/// Some bytes of it otherwise than they were.
pub fn damaged(draws: &mut Draws, bytes: &[u8]) -> Vec<u8> {
    let mut bytes = bytes.to_vec();
    for _ in 0..1 + draws.below(3) {
        let at = draws.below(bytes.len().max(1));
        match draws.below(7) {
            0 => bytes.truncate(at),
            1 if at < bytes.len() => bytes[at] ^= 1 << draws.below(8),
            2 if at < bytes.len() => bytes[at] = draws.next() as u8,
            3 if at < bytes.len() => {
                bytes.remove(at);
            }
            4 => bytes.insert(at.min(bytes.len()), draws.next() as u8),
            5 => bytes.extend((0..draws.below(9)).map(|_| draws.next() as u8)),
            _ => {
                let from = draws.below(bytes.len().max(1)).min(bytes.len());
                let piece = bytes[from..(from + draws.below(20)).min(bytes.len())].to_vec();
                let at = at.min(bytes.len());
                bytes.splice(at..at, piece);
            }
        }
    }
    bytes
}

/// What a command answered.
pub struct Answer {
    pub status: u8,
    pub out: Vec<u8>,
    pub errors: String,
}

/// A command in this process, with `input` as standard input.
pub fn run(arguments: &[&str], input: &[u8]) -> Answer {
    let arguments: Vec<std::ffi::OsString> = arguments.iter().map(|argument| argument.into()).collect();
    let (mut out, mut errors) = (Vec::new(), Vec::new());
    let mut around = card::command::Around {
        input: &mut &input[..],
        output: &mut out,
        errors: &mut errors,
        terminal: false,
        no_color: false,
        width: Some(80),
    };
    let status = card::command::run(&arguments, &mut around);
    Answer { status, out, errors: String::from_utf8(errors).expect("messages are ASCII") }
}

/// One plain line where a command fails, and none where it does not.
pub fn is_plain(answer: &Answer) {
    if answer.status == 0 {
        assert_eq!(answer.errors, "");
        return;
    }
    let line = answer.errors.strip_suffix('\n').expect("a line ends");
    assert!(!line.is_empty() && line.bytes().all(|byte| (b' '..=b'~').contains(&byte)), "{line:?}");
}

/// Nothing on a terminal but printable ASCII and new lines, and the tints if they are asked for.
pub fn is_printable(out: &[u8], color: bool) {
    let mut text = std::str::from_utf8(out).expect("ASCII").to_string();
    if color {
        for tint in ["\x1b[0m", "\x1b[33m", "\x1b[1;32m", "\x1b[36m", "\x1b[2m"] {
            text = text.replace(tint, "");
        }
    }
    let odd = text.bytes().find(|byte| !matches!(byte, b' '..=b'~' | b'\n'));
    assert_eq!(odd, None, "{text}");
}

/// The text of a sound card, which `make` takes.
pub fn text_of(card: &[u8]) -> String {
    let tree = records::read(card).tree.expect("a sound card has a tree");
    let lines = show::show(&tree, &Look::default()).lines;
    lines.iter().map(|line| format!("{}{}\n", " ".repeat(INDENT * line.indent), line.text())).collect()
}

/// A file of any sort through every command.
pub fn through_every_command(file: &[u8]) {
    for arguments in [
        &["show", "-"][..],
        &["show", "--bytes", "-"],
        &["shorten", "-"],
        &["shorten", "-", "--straight", "--root", "::a", "--color", "always"],
        &["html", "-"],
    ] {
        let answer = run(arguments, file);
        is_plain(&answer);
        is_printable(&answer.out, arguments.contains(&"always"));
        let refused = records::read(file).refusal.is_some();
        // A sound card may have too many names, but nothing else is refused.
        if refused != (answer.status == 1) {
            assert!(arguments[0] != "show" && answer.errors.contains("full table (8)"), "{}", answer.errors);
        }
    }
    let answer = run(&["make", "-"], file);
    is_plain(&answer);
}

/// A card damaged by its bytes, or one whose tree is not as it may be.
pub fn damaged_card(draws: &mut Draws) -> Vec<u8> {
    let card = sound_card(draws);
    if draws.once_in(2) {
        return damaged(draws, &card);
    }
    let mut tree = records::read(&card).tree.expect("a sound card has a tree");
    let mut nth = draws.below(count(&tree));
    spoil(draws, &mut tree, &mut nth);
    tree.to_bytes()
}

fn count(node: &Node) -> usize {
    1 + node.kids.iter().map(count).sum::<usize>()
}

/// The record met behind so many others.
fn spoil(draws: &mut Draws, node: &mut Node, nth: &mut usize) {
    if *nth > 0 {
        *nth -= 1;
        for kid in &mut node.kids {
            let met = *nth == usize::MAX;
            if met {
                return;
            }
            spoil(draws, kid, nth);
        }
        return;
    }
    *nth = usize::MAX;
    match draws.below(8) {
        0 => node.kind = draws.below(0x90) as u16,
        1 => node.kind ^= 1,
        2 => drop(node.kids.pop()),
        3 if !node.kids.is_empty() => {
            let again = node.kids[draws.below(node.kids.len())].clone();
            node.kids.push(again);
        }
        4 => node.bytes = b"!".into(),
        5 => node.bytes = b"".into(),
        6 => {
            for _ in 0..draws.below(MOST_DEPTH) {
                let wrapper = if kinds::TYPE.has(node.kind) { 0x2F } else { 0x45 };
                *node = Node::branch(0, wrapper, vec![node.clone()]);
            }
        }
        _ => node.kids.insert(0, Node::leaf(0, draws.below(4) as u16, &b"!"[..])),
    }
}
