//! Cards for measuring, made: by the number of pairs, one name under many bases, many nested modules, deep
//! types, typical ones by size, and ones with so many pairs that more words are lent for them.
use compare::cards::*;
use std::collections::HashSet;

/// Numbers as if drawn, the same each time.
struct Draws(u32);

impl Draws {
    fn below(&mut self, n: usize) -> usize {
        self.0 = self.0.wrapping_mul(1664525).wrapping_add(1013904223);
        (self.0 >> 8) as usize % n
    }

    fn of<'a>(&mut self, all: &[&'a str]) -> &'a str {
        all[self.below(all.len())]
    }

    /// So many different names, equally long.
    fn names(&mut self, count: usize, length: usize) -> Vec<String> {
        let mut seen = HashSet::new();
        let mut names = Vec::new();
        while names.len() < count {
            let letter = |i| match i % 2 {
                0 => b"bcdfghklmnprstvw"[self.below(16)] as char,
                _ => b"aeiou"[self.below(5)] as char,
            };
            let name: String = (0..length).map(letter).collect();
            if seen.insert(name.clone()) {
                names.push(name);
            }
        }
        names
    }
}

/// A module with so many pairs, an even number: constants, each with a type of its own under a base of
/// its own. A constant's name is one pair, its type another.
pub fn pairs(count: usize) -> Vec<u8> {
    let mut draws = Draws(1);
    let names = draws.names(count, 8);
    let modules = draws.names(count / 2, 11);
    let empty_raw = || record(0x40, &[text("")]);
    let constant = |(i, own): (usize, &[String])| {
        let crate_name = ["cue_lights", "cue_sounds"][i % 2];
        constant(&own[0], ty(&format!("::{crate_name}::{}::{}", modules[i], own[1])), empty_raw())
    };
    module("m", &names.chunks(2).enumerate().map(constant).collect::<Vec<_>>())
}

/// A module with so many pairs, an even number, in fewer bytes: nested ExternMods, and as many path types.
pub fn close_pairs(count: usize) -> Vec<u8> {
    let names = Draws(9).names(count, 6);
    let (own, others) = names.split_at(count / 2);
    let mut body: Vec<Bytes> = own.iter().map(|name| nested(extern_module(name))).collect();
    body.push(global_types(others));
    module("m", &body)
}

/// A module with so many pairs, each that of one path type.
pub fn paths(count: usize) -> Vec<u8> {
    module("m", &[global_types(&Draws(8).names(count, 6))])
}

/// Path types of these names under Global.
fn global_types(names: &[String]) -> Bytes {
    only_types(&names.iter().map(|name| ty(&format!("::{name}"))).collect::<Vec<_>>())
}

/// One name under so many different bases, in fewer bytes.
pub fn close_bases(count: usize) -> Vec<u8> {
    let bases = Draws(10).names(count, 3);
    module("m", &[only_types(&bases.iter().map(|base| ty(&format!("::{base}::X"))).collect::<Vec<_>>())])
}

/// One name under so many different bases, equally long.
pub fn one_name(bases: usize) -> Vec<u8> {
    let mut draws = Draws(2);
    let modules = draws.names(bases, 6);
    let types: Vec<Bytes> = modules.iter().map(|m| ty(&format!("::cues::{m}::Show"))).collect();
    module("m", &[only_types(&types)])
}

/// So many nested modules, each followed by a declaration with a path under the parent's prefix.
pub fn nested_modules(count: usize) -> Vec<u8> {
    let mut draws = Draws(4);
    let names = draws.names(count, 3);
    let declarations = |(i, name): (usize, &String)| {
        let inside = implementation(&[], ty(["::Cue", "::Fade"][i % 2]), &[]);
        let other = &names[i * 7 % count];
        [nested(module(name, &[inside])), implementation(&[], ty(&format!("crate::m::{other}")), &[])]
    };
    module("m", &names.iter().enumerate().flat_map(declarations).collect::<Vec<_>>())
}

/// A module that leaves room for few pairs more, and nested modules with as many bytes as that and more, each followed by
/// a declaration with a path under the parent's prefix: nothing fits beside the parent's table.
pub fn crowded() -> Vec<u8> {
    let mut draws = Draws(6);
    let own = draws.names(511 - 40, 3);
    let inner = draws.names(40, 4);
    let mut body: Vec<Bytes> = own.iter().map(|name| nested(extern_module(name))).collect();
    for (i, name) in inner.iter().enumerate() {
        body.push(nested(module(name, &[implementation(&[], ty("::Cue"), &[])])));
        body.push(implementation(&[], ty(&format!("crate::m::{}", own[i])), &[]));
    }
    module("m", &body)
}

/// A module with so many names of its own and so many nested modules, which are too large to borrow words of its table, each
/// followed by a declaration with a path under the parent's prefix. Where the parent's pairs leave too few of the words
/// lent, it is collected again after each.
pub fn evicting(own: usize, inner: usize) -> Vec<u8> {
    let mut draws = Draws(7);
    let own = draws.names(own, 3);
    let inner = draws.names(inner, 4);
    let types = draws.names(22, 5);
    let mut body: Vec<Bytes> = own.iter().map(|name| nested(extern_module(name))).collect();
    for (i, name) in inner.iter().enumerate() {
        let inside: Vec<Bytes> =
            types.iter().map(|t| implementation(&[], ty(&format!("::{t}")), &[])).collect();
        body.push(nested(module(name, &inside)));
        body.push(implementation(&[], ty(&format!("crate::m::{}", own[i])), &[]));
    }
    module("m", &body)
}

/// So many names, at most 512, of equal length and with equal sums of bytes times powers of 31: a hash that is such a sum
/// takes them all for one. Each is that of a path type under Global.
pub fn colliding(count: usize) -> Vec<u8> {
    let name = |i: usize| -> String { (0..9).map(|bit| ["Aa", "BB"][i >> bit & 1]).collect() };
    let body = (0..count).map(|i| implementation(&[], ty(&format!("::{}", name(i))), &[]));
    module("m", &body.collect::<Vec<_>>())
}

/// So many names of six letters that were searched for until their numbers, which `crates/comparing` defines, have so
/// many upper bits in common. With all 16 the console's table takes them for one; with 9 they stand in one of its 512
/// buckets. Either way one chain has them all. Path types under Global.
pub fn searched(count: usize, bits: u32) -> Vec<u8> {
    let four = |name: &[u8]| u32::from_le_bytes([name[0], name[1], name[2], name[3]]);
    let number = |name: &[u8]| {
        let sum = four(&name[..4]).wrapping_mul(1540483477).wrapping_add(four(&name[2..]));
        sum.wrapping_mul(1831565813) >> 16
    };
    let letters = |mut i: u32| {
        [(); 6].map(|()| {
            let letter = b'a' + (i % 26) as u8;
            i /= 26;
            letter
        })
    };
    let names = (0..26u32.pow(6)).map(letters).filter(|name| (number(name) ^ 0x1234) >> (16 - bits) == 0);
    let names: Vec<String> = names.take(count).map(|name| name.map(char::from).iter().collect()).collect();
    module("m", &[global_types(&names)])
}

/// A function with so many formals, each a path type with as many types around it as may be.
pub fn deep_types(formals: usize) -> Vec<u8> {
    let mut draws = Draws(5);
    let names = draws.names(8, 6);
    // The outermost of these types is 8 deep, the names in the path 3 deeper than the innermost.
    let deep = |i: usize| {
        let path = ty(&format!("::cues::{}", names[i % names.len()]));
        (8..45).fold(path, |inside, _| record(0x2F, &[inside]))
    };
    let formals: Vec<Bytes> = (0..formals).map(|i| formal("level", deep(i))).collect();
    module("m", &[top_fn(function("fade", &[], &formals, none(), none()))])
}

/// The least card: an ExternMod "a".
pub fn least() -> Vec<u8> {
    extern_module("a")
}

/// A struct and a constant of its type.
pub fn small() -> Vec<u8> {
    let fields = named_fields(&[ty("::dafny_runtime::DafnyInt")]);
    let value = record(0x59, &[ex("::dafny_runtime::int!"), list(&[record(0x4C, &[text("42")])])]);
    module("m", &[structure("Cue", &[], fields), constant("first", ty("crate::m::Cue"), value)])
}

/// Declarations as a compiler from Dafny to Rust writes them, as many as make this size.
pub fn typical(size: usize) -> Vec<u8> {
    let mut writer = Writer { draws: Draws(3), types: Vec::new(), modules: Vec::new() };
    writer.modules = writer.draws.names(size / 2048 + 2, 9);
    let mut body = vec![use_decl("::dafny_runtime")];
    let mut length = module("cue_cards", &body).len();
    loop {
        let declaration = writer.declaration();
        length += declaration.len();
        if length > size {
            return module("cue_cards", &body);
        }
        body.push(declaration);
    }
}

struct Writer {
    draws: Draws,
    /// Names of the module's own types.
    types: Vec<String>,
    /// Modules beside it.
    modules: Vec<String>,
}

impl Writer {
    fn new_name(&mut self) -> String {
        let length = 6 + self.draws.below(8);
        self.draws.names(1, length).remove(0)
    }

    fn path(&mut self) -> String {
        const RUNTIME: [&str; 10] = [
            "DafnyInt",
            "Sequence",
            "Object",
            "DafnyType",
            "DafnyPrint",
            "Set",
            "Map",
            "DafnyChar",
            "_System",
            "Multiset",
        ];
        const STD: [&str; 6] =
            ["rc::Rc", "any::Any", "default::Default", "fmt::Formatter", "fmt::Result", "hash::Hasher"];
        const BESIDE: [&str; 8] =
            ["Cue", "Fade", "Light", "Sound", "Option", "Result", "default__", "Channel"];
        match self.draws.below(8) {
            0..=2 => format!("::dafny_runtime::{}", self.draws.of(&RUNTIME)),
            3 => format!("::std::{}", self.draws.of(&STD)),
            4 | 5 if !self.types.is_empty() => {
                let i = self.draws.below(self.types.len());
                format!("crate::cue_cards::{}", self.types[i])
            }
            _ => {
                let i = self.draws.below(self.modules.len());
                format!("crate::{}::{}", self.modules[i], self.draws.of(&BESIDE))
            }
        }
    }

    fn of_type(&mut self, deep: usize) -> Bytes {
        match self.draws.below(if deep == 0 { 5 } else { 10 }) {
            0 | 1 => record(0x20 + self.draws.below(12) as u16, &[]),
            2 => identifier_type("Self"),
            3 | 4 => ty(&self.path()),
            5 | 6 => record(0x2F, &[self.of_type(deep - 1)]),
            7 => record(0x33, &[list(&[self.of_type(deep - 1), self.of_type(deep - 1)])]),
            _ => record(0x2E, &[ty(&self.path()), list(&[self.of_type(deep - 1)])]),
        }
    }

    fn expr(&mut self, deep: usize) -> Bytes {
        let name = |w: &mut Self| record(0x42, &[text(w.draws.of(&["self", "i", "cue", "_this", "level"]))]);
        match self.draws.below(if deep == 0 { 4 } else { 13 }) {
            0 | 1 => name(self),
            2 => record(0x4C, &[text("42")]),
            3 => ex(&self.path()),
            4 | 5 => {
                let of = record(0x5D, &[ex(&self.path()), text("read")]);
                record(0x59, &[of, list(&[self.expr(deep - 1), self.expr(deep - 1)])])
            }
            6 => record(0x5A, &[self.expr(deep - 1), text("level")]),
            7 => record(0x49, &[text("+"), self.expr(deep - 1), self.expr(deep - 1), kept(&[0])]),
            8 => record(0x51, &[self.expr(deep - 1), self.expr(deep - 1), self.expr(deep - 1)]),
            9 => {
                let of = ex(&(self.path() + "!"));
                record(0x59, &[of, list(&[name(self)])])
            }
            _ => {
                let declared =
                    [kept(&[1]), text("cue"), list(&[self.of_type(2)]), list(&[self.expr(deep - 1)])];
                record(0x44, &[record(0x4F, &declared), self.expr(deep - 1)])
            }
        }
    }

    fn function(&mut self) -> Bytes {
        let name = self.new_name();
        let formals: Vec<Bytes> =
            (0..1 + self.draws.below(3)).map(|_| formal("level", self.of_type(2))).collect();
        let (result, body) = (self.of_type(2), self.expr(4));
        function(&name, &[], &formals, list(&[result]), list(&[body]))
    }

    fn declaration(&mut self) -> Bytes {
        let name = self.new_name();
        let kind = self.draws.below(8);
        if kind < 3 {
            self.types.push(name.clone());
        }
        let params = match self.draws.below(3) {
            0 => vec![param("T", tys(["::dafny_runtime::DafnyType"]))],
            _ => vec![],
        };
        let fields = |w: &mut Self| -> Vec<Bytes> { (0..3).map(|_| w.of_type(2)).collect() };
        match kind {
            0 | 1 => structure(&name, &params, named_fields(&fields(self))),
            2 => {
                let cases: Vec<Bytes> = (0..2).map(|_| named_fields(&fields(self))).collect();
                enumeration(&name, &params, &cases)
            }
            3 => constant(&name, self.of_type(2), self.expr(2)),
            4 => top_fn(self.function()),
            5 => {
                let of = ty(&self.path());
                impl_for(&params, of, self.of_type(1), &[fn_member(self.function())])
            }
            _ => {
                let of = ty(&self.path());
                let members: Vec<Bytes> = (0..3).map(|_| fn_member(self.function())).collect();
                implementation(&params, of, &members)
            }
        }
    }
}
