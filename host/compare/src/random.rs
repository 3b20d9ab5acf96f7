//! Random cards, sound and damaged.
use crate::cards::{brief, extern_module, kept, list, nested, only_types, path, record, select, text, Bytes};
use crate::rows::{Place, Shape, What, DECLARATIONS, ROWS};
use crate::{most_pairs, MOST_CARD, WORDS};

/// A card with its root, and how many work words are lent.
pub struct Case {
    pub root: Vec<u8>,
    pub card: Vec<u8>,
    pub words: usize,
}

/// Numbers as if drawn.
pub struct Draws(u64);

impl Draws {
    /// Those of one case among the many of a seed.
    pub fn new(seed: u64, number: usize) -> Draws {
        Draws(mixed(mixed(seed) ^ number as u64))
    }

    pub fn below(&mut self, n: usize) -> usize {
        self.0 = self.0.wrapping_add(0x9e37_79b9_7f4a_7c15);
        (mixed(self.0) >> 32) as usize % n
    }

    /// Once in n times.
    fn once(&mut self, n: usize) -> bool {
        self.below(n) == 0
    }

    fn of<T: Clone>(&mut self, all: &[T]) -> T {
        all[self.below(all.len())].clone()
    }

    fn bytes(&mut self, below: usize) -> Bytes {
        (0..self.below(below)).map(|_| self.below(256) as u8).collect()
    }
}

fn mixed(mut x: u64) -> u64 {
    x = (x ^ x >> 30).wrapping_mul(0xbf58_476d_1ce4_e5b9);
    x = (x ^ x >> 27).wrapping_mul(0x94d0_49bb_1331_11eb);
    x ^ x >> 31
}

const NAMES: [&str; 22] = [
    "X",
    "Y",
    "Z",
    "a",
    "b",
    "m",
    "rd",
    "rd!",
    "X!",
    "X!!",
    "a!",
    "!",
    "!!",
    "",
    "dafny_runtime",
    "Self",
    "crate",
    "r#X",
    "r#",
    "default__",
    "a_name_that_is_somewhat_longer_than_the_others",
    "\u{e9}\u{2026}",
];

const BASES: [&str; 21] = [
    "",
    "crate",
    "Self",
    "::a",
    "::b",
    "::dafny_runtime",
    "::dafny_runtime",
    "::dafny_runtime::dafny_runtime",
    "::dafny_runtim",
    "crate::dafny_runtime",
    "crate::m",
    "crate::m::m",
    "crate::m::b",
    "crate::m::b::b",
    "crate::X",
    "Self::a",
    "Self::Self",
    "::a::a",
    "::a::b::a",
    "::std::rc",
    "::!!",
];

const ROOTS: [&str; 9] = [
    "crate",
    "crate",
    "crate",
    "",
    "Self",
    "::dafny_runtime",
    "crate::a",
    "::a::b::c",
    "crate::a::a::a::a::a::a::a",
];

const NAMELESS_ROOTS: [&str; 6] = ["crate::", "::!", "::::a", "crate::!::a", "::a::b::!", "Self::"];

/// Work words, too few of them and more than the least that suffice.
const FEW_WORDS: [usize; 4] = [0, 1, 512, WORDS - 1];
const MORE_WORDS: [usize; 14] =
    [2049, 2051, 2052, 2055, 2056, 2800, 3000, 4092, 4095, 4096, 4097, 4100, 8192, 9999];

/// The cases of a seed, without end.
pub fn cases(seed: u64) -> impl Iterator<Item = Case> {
    (0..).map(move |number| case(&mut Draws::new(seed, number)))
}

/// The case that is drawn.
pub fn case(draws: &mut Draws) -> Case {
    let maker = Maker {
        draws,
        root: Vec::new(),
        names: Vec::new(),
        bases: Vec::new(),
        prefixes: Vec::new(),
        room: 0,
        declarations: 0,
        deepest: 0,
        full: 0,
        most: 0,
    };
    maker.case()
}

/// What makes one.
struct Maker<'d> {
    draws: &'d mut Draws,
    root: Bytes,
    /// From these the card draws.
    names: Vec<Bytes>,
    bases: Vec<Bytes>,
    /// Of the modules around, the outermost first; of each the one of either operation.
    prefixes: Vec<[Bytes; 2]>,
    /// How many more records one declaration may have, and how many more declarations the card.
    room: usize,
    declarations: usize,
    /// Below this level it ends soon.
    deepest: u32,
    /// So many modules are to have about as many pairs as fit, and how many do.
    full: usize,
    most: usize,
}

impl Maker<'_> {
    fn name(&mut self) -> Bytes {
        match self.draws.below(40) {
            0 => self.draws.bytes(6),
            1 => self.draws.of(&NAMES).as_bytes().to_vec(),
            _ => self.draws.of(&self.names),
        }
    }

    /// A name that a path may have.
    fn path_name(&mut self) -> Bytes {
        loop {
            let name = self.name();
            if is_name(&name) {
                return name;
            }
        }
    }

    /// A path with a name in each of its parts. Modules may have none: their prefixes aren't taken then.
    fn path(&mut self) -> Bytes {
        let operation = self.draws.below(2);
        let prefix = self.prefixes.last().map_or(&self.root, |prefixes| &prefixes[operation]);
        let mut base = match self.draws.below(12) {
            0..=2 => prefix.clone(),
            // The prefix without its last name.
            3 => prefix[6..end(prefix, 6)].to_vec(),
            4 => self.draws.of(&self.prefixes)[operation].clone(),
            5 if self.draws.once(2) => return path(self.draws.of(&["", "crate", "Self"])),
            _ => self.draws.of(&self.bases),
        };
        if !is_named(&base) {
            base = self.draws.of(&self.bases);
        }
        while self.draws.once(10) {
            base = select(base, self.path_name());
        }
        let mut name = self.path_name();
        if self.draws.once(8) {
            name.push(b'!');
        }
        select(base, name)
    }

    /// What stands at a place, at this depth.
    fn at(&mut self, place: &Place, depth: u32) -> Bytes {
        let count = match place.shape {
            Shape::One => return self.one(place, depth),
            _ if self.room == 0 => 0,
            Shape::List => self.draws.below(4),
            Shape::Option => self.draws.below(2),
        };
        list(&(0..count).map(|_| self.one(place, depth + 1)).collect::<Vec<_>>())
    }

    fn one(&mut self, place: &Place, depth: u32) -> Bytes {
        self.room = self.room.saturating_sub(1);
        match place.what {
            What::Bytes if place.first == 0x01 && self.draws.once(2) => text(self.name()),
            What::Bytes => record(place.first.into(), &[self.draws.bytes(4)]),
            What::Own => text(self.name()),
            What::Path => self.path(),
            What::Module => self.module(depth),
            _ if matches!(place.first, 0x20 | 0x40) && self.room > 0 && self.draws.once(60) => {
                self.chain(place, depth)
            }
            _ => {
                let kind = self.kind(place, depth);
                self.fields(kind, depth)
            }
        }
    }

    fn kind(&mut self, place: &Place, depth: u32) -> u16 {
        let ends = self.room == 0 || depth >= self.deepest;
        match (place.first, self.draws.below(50)) {
            (0x20, ..20) => 0x2D,
            (0x20, 20..28) => 0x2C,
            (0x20, 28..34) if !ends => 0x2E,
            (0x20, _) if ends => 0x20,
            (0x40, ..18) => 0x5C,
            (0x40, _) if ends => self.draws.of(&[0x40, 0x42, 0x4C, 0x4D, 0x55]),
            (first, _) => (first as usize + self.draws.below((place.last - first) as usize + 1)) as u16,
        }
    }

    fn fields(&mut self, kind: u16, depth: u32) -> Bytes {
        let mut fields: Vec<Bytes> = ROWS[kind as usize].iter().map(|p| self.at(p, depth + 1)).collect();
        // A trait's own name is collected where its type is one of these.
        if kind == 0x7B && self.draws.once(2) {
            let name = record(0x2C, &[text(self.name())]);
            fields[3] = if self.draws.once(2) { record(0x2E, &[name, list(&[])]) } else { name };
        }
        record(kind, &fields)
    }

    /// A path type or a path expression with many others around it, at times too many.
    fn chain(&mut self, place: &Place, depth: u32) -> Bytes {
        let (kinds, mut it) = match place.first {
            0x20 => (&[0x2F, 0x30, 0x31, 0x32, 0x36, 0x37, 0x38][..], self.fields(0x2D, depth)),
            _ if self.draws.once(2) => (&[0x45, 0x48, 0x54, 0x59, 0x5A][..], self.fields(0x5C, depth)),
            _ => (&[0x44, 0x45, 0x4A, 0x58, 0x5D][..], record(0x41, &[self.fields(0x2D, depth)])),
        };
        let bottom = 10 + self.draws.below(40) as u32;
        self.room = 0;
        for level in (depth..bottom).rev() {
            let kind = self.draws.of(kinds);
            let mut inside = Some(it);
            let field = |p: &Place| match p.first == place.first && p.shape == Shape::One {
                true => inside.take().unwrap_or_else(|| self.at(p, level + 1)),
                false => self.at(p, level + 1),
            };
            let fields: Vec<Bytes> = ROWS[kind as usize].iter().map(field).collect();
            it = record(kind, &fields);
        }
        it
    }

    /// Declarations with nearly as many pairs as a module may have, or one too many: own names or paths.
    fn about_full(&mut self) -> Vec<Bytes> {
        let names = (0..self.most - 14 + self.draws.below(16)).map(brief);
        match self.draws.once(2) {
            true => names.map(|name| nested(extern_module(name))).collect(),
            false => {
                let of_path = |name| record(0x2D, &[select(path(""), name)]);
                vec![only_types(&names.map(of_path).collect::<Vec<_>>())]
            }
        }
    }

    fn module(&mut self, depth: u32) -> Bytes {
        let name = self.name();
        let prefixes = match self.prefixes.last() {
            Some([twice, once]) => [select(select(twice.clone(), &name), &name), select(once.clone(), &name)],
            None => [(); 2].map(|_| select(self.root.clone(), &name)),
        };
        if self.draws.once(if self.prefixes.is_empty() { 40 } else { 4 }) {
            return extern_module(name);
        }
        self.prefixes.push(prefixes);
        let mut body = Vec::new();
        if self.full > 0 && self.draws.once(2) {
            self.full -= 1;
            body = self.about_full();
        }
        for _ in 0..self.draws.below(10).min(self.declarations) {
            self.declarations = self.declarations.saturating_sub(1);
            self.room = 1 + self.draws.below(60);
            body.push(self.one(&DECLARATIONS, depth + 2));
        }
        self.prefixes.pop();
        record(0x60, &[text(self.draws.bytes(3)), kept(&self.draws.bytes(3)), text(name), list(&body)])
    }

    /// Takes the name from a path in sound bytes, where there is one.
    fn unname(&mut self, bytes: &mut Bytes) {
        let name = text(self.draws.of(&["", "!"]));
        self.rename(bytes, name);
    }

    /// The same, now and then with more that is wrong there.
    fn unname_badly(&mut self, bytes: &mut Bytes) {
        let name = self.draws.of(&["", "!"]);
        let wrong = match self.draws.below(12) {
            0 => kept(name.as_bytes()),
            1 => text(name)[..self.draws.below(6)].to_vec(),
            2 => [vec![1, 0, 0, 0, 1, 0], name.into()].concat(),
            3..=5 => [text(name), self.draws.bytes(9)].concat(),
            _ => text(name),
        };
        self.rename(bytes, wrong);
    }

    /// Puts this for the name of a path. The records around it stay whole.
    fn rename(&mut self, bytes: &mut Bytes, name: Bytes) {
        let records = records(bytes);
        let paths: Vec<_> = records.iter().copied().filter(|&(at, ..)| bytes[at + 4] == 0x13).collect();
        if paths.is_empty() {
            return;
        }
        // Now and then one whose name is as deep as may be, or too deep.
        let deep = paths.iter().find(|&&(_, _, depth)| depth >= 47).filter(|_| self.draws.once(2));
        let (at, stop, _) = deep.copied().unwrap_or_else(|| self.draws.of(&paths));
        let old = end(bytes, at + 6);
        for &(start, end, _) in records.iter().filter(|r| r.0 <= at && stop <= r.1) {
            set_length(bytes, start, end - start + name.len() - (stop - old));
        }
        bytes.splice(old..stop, name);
    }

    /// Something in sound bytes that mostly makes them unsound.
    fn damage(&mut self, bytes: &mut Bytes) {
        let records = records(bytes);
        // Now and then one that is just too deep.
        let too_deep = records.iter().find(|&&(_, _, depth)| depth == 49).filter(|_| self.draws.once(2));
        let (at, end, _) = too_deep.copied().unwrap_or_else(|| self.draws.of(&records));
        match self.draws.below(9) {
            0 => {
                let i = self.draws.below(bytes.len());
                bytes[i] = self.draws.below(256) as u8;
            }
            1 => bytes.truncate(self.draws.below(bytes.len() + 1)),
            2 => bytes.extend(self.draws.bytes(9)),
            // Another length.
            3 => {
                let i = at + self.draws.of(&[0, 0, 0, 1, 2, 3]);
                bytes[i] = bytes[i].wrapping_add(self.draws.of(&[1, 2, 6, 250, 254, 255]));
            }
            // Another kind.
            4 | 5 => {
                bytes[at + 4] = self.draws.below(0x90) as u8;
                bytes[at + 5] = self.draws.once(10) as u8;
            }
            // Bytes more at its end, or one record less: all around it stay whole.
            6 | 7 => {
                let more = match self.draws.once(2) {
                    true => self.draws.bytes(9),
                    false => bytes[at..end].to_vec(),
                };
                for &(start, stop, _) in records.iter().filter(|r| r.0 <= at && end <= r.1) {
                    set_length(bytes, start, stop - start + more.len());
                }
                bytes.splice(end..end, more);
            }
            _ => {
                for &(start, stop, _) in records.iter().filter(|r| r.0 < at && end <= r.1) {
                    set_length(bytes, start, stop - start - (end - at));
                }
                bytes.drain(at..end);
            }
        }
    }
}

/// The record at this place gets so many bytes in all.
fn set_length(bytes: &mut [u8], at: usize, size: usize) {
    bytes[at..at + 4].copy_from_slice(&(size as u32 - 4).to_le_bytes());
}

/// Where the record at this place ends.
fn end(bytes: &[u8], at: usize) -> usize {
    let length = bytes[at..].first_chunk().map_or(0, |&length| u32::from_le_bytes(length));
    at + 4 + length as usize
}

/// Whether a path may have it.
fn is_name(name: &[u8]) -> bool {
    !matches!(name, b"" | b"!")
}

/// Whether every part of a path has a name.
fn is_named(path: &[u8]) -> bool {
    path[4] != 0x13 || {
        let name = end(path, 6);
        is_name(&path[name + 6..]) && is_named(&path[6..name])
    }
}

/// Where the records of sound bytes stand and end, and how deep they are.
fn records(bytes: &[u8]) -> Vec<(usize, usize, u32)> {
    fn inside(bytes: &[u8], mut at: usize, to: usize, depth: u32, all: &mut Vec<(usize, usize, u32)>) {
        while at < to {
            let end = end(bytes, at);
            all.push((at, end, depth));
            if !matches!(bytes[at + 4], 0x01 | 0x03) {
                inside(bytes, at + 6, end, depth + 1, all);
            }
            at = end;
        }
    }
    let mut all = Vec::new();
    inside(bytes, 0, bytes.len(), 1, &mut all);
    all
}

/// So many bytes more in the first field, the doc string of a Mod.
fn pad(card: &mut Bytes, more: usize) {
    for at in [0, 6] {
        let size = end(card, at) - at;
        set_length(card, at, size + more);
    }
    card.splice(12..12, std::iter::repeat_n(b' ', more));
}

impl Maker<'_> {
    fn case(mut self) -> Case {
        self.names =
            (0..2 + self.draws.below(6)).map(|_| self.draws.of(&NAMES).as_bytes().to_vec()).collect();
        self.bases = (0..1 + self.draws.below(5)).map(|_| path(self.draws.of(&BASES))).collect();
        self.root = path(self.draws.of(&ROOTS));
        self.declarations = self.draws.of(&[2, 5, 20, 60]);
        self.deepest = self.draws.of(&[12, 20, 44, 60]);
        let words = match self.draws.below(80) {
            0 => self.draws.of(&FEW_WORDS),
            1..=29 => WORDS,
            _ => self.draws.of(&MORE_WORDS),
        };
        self.most = most_pairs(words.max(WORDS));
        // Of the largest there is room for one.
        let most_full = if self.most < 600 { 2 } else { 1 };
        self.full = if self.draws.once(40) { 1 + self.draws.below(most_full) } else { 0 };
        let mut card = self.module(1);
        if self.draws.once(150) && card[4] == 0x60 && card.len() < MOST_CARD - 5 {
            let size = MOST_CARD - 3 + self.draws.below(6);
            let more = size - card.len();
            pad(&mut card, more);
        }
        let mut root = self.root.clone();
        match self.draws.below(45) {
            0..=13 => self.damage(&mut card),
            14 => {
                self.unname(&mut card);
                self.damage(&mut card);
            }
            15..=17 => self.unname_badly(&mut card),
            _ => {}
        }
        match self.draws.below(120) {
            0 | 1 => self.damage(&mut root),
            2 => root = path(&format!("crate{}", "::a".repeat(6 + self.draws.below(4)))),
            3 => root = select(path(""), "r".repeat(237 + self.draws.below(4))),
            4 => root = path(self.draws.of(&NAMELESS_ROOTS)),
            _ => {}
        }
        Case { root, card, words }
    }
}
