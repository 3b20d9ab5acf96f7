//! The names of all modules of a card, with their bases.
use compare::Operation;
use std::collections::hash_map::{Entry, HashMap};
use std::hash::{BuildHasher, BuildHasherDefault, Hasher};
use std::iter;
use std::ops::Range;

/// No module, no pair, no name.
pub const NONE: u32 = u32::MAX;

/// The record of a base in the card; none for the module's prefix.
type Base<'a> = Option<&'a [u8]>;

/// The record of the path ::dafny_runtime.
const DAFNY_RUNTIME: &[u8] = b"\x1b\0\0\0\x13\0\x02\0\0\0\x10\0\x0f\0\0\0\x01\0dafny_runtime";

/// `S` makes the hashes.
#[derive(Default)]
pub struct Names<'a, S> {
    modules: Vec<Module>,
    /// How many pairs a module may have.
    most: usize,
    /// The root and the prefixes of modules.
    paths: Vec<u8>,
    names: Vec<Name<'a>>,
    /// A name's number by module and name.
    numbers: HashMap<(u32, &'a [u8]), u32, S>,
    /// The names of the pairs.
    pairs: Vec<u32>,
    /// A pair's number by name and base, of all but a name's first.
    more: HashMap<(u32, Base<'a>), u32, S>,
}

pub struct Module {
    pub place: usize,
    /// How many pairs it has, at most one too many.
    pairs: usize,
    prefix: Range<usize>,
    /// Its first and last name.
    names: (u32, u32),
}

struct Name<'a> {
    name: &'a [u8],
    /// The first pair and its base; those of the prefix and of ::dafny_runtime.
    first: u32,
    base: Base<'a>,
    prefix: u32,
    runtime: u32,
    alone: bool,
    /// The next of its module.
    next: u32,
}

impl<'a, S: BuildHasher + Default> Names<'a, S> {
    pub fn new(root: &[u8], most: usize) -> Self {
        Names { paths: root.to_vec(), most, ..Names::default() }
    }

    /// The first module with too many pairs.
    pub fn full(&self) -> Option<&Module> {
        self.modules.iter().find(|module| module.pairs > self.most)
    }

    /// Starts a module: its number. Upstream a nested one's prefix gets the name twice.
    pub fn enter(&mut self, operation: Operation, parent: u32, name: &[u8], place: usize) -> u32 {
        let prefix = match self.modules.get(parent as usize) {
            Some(parent) => {
                let once = self.select(parent.prefix.clone(), name);
                match operation {
                    Operation::Upstream => self.select(once, name),
                    Operation::Straight => once,
                }
            }
            // The root stands first, before any prefix.
            None => self.select(0..self.paths.len(), name),
        };
        self.modules.push(Module { place, pairs: 0, prefix, names: (NONE, NONE) });
        self.modules.len() as u32 - 1
    }

    /// Writes a PMemberSelect behind the paths.
    fn select(&mut self, base: Range<usize>, name: &[u8]) -> Range<usize> {
        let start = self.paths.len();
        self.paths.extend((8 + base.len() as u32 + name.len() as u32).to_le_bytes());
        self.paths.extend([0x13, 0]);
        self.paths.extend_from_within(base);
        self.paths.extend((2 + name.len() as u32).to_le_bytes());
        self.paths.extend([0x01, 0]);
        self.paths.extend(name);
        start..self.paths.len()
    }

    pub fn base(&self, module: u32, base: &'a [u8]) -> Base<'a> {
        let prefix = self.modules[module as usize].prefix.clone();
        (base != &self.paths[prefix]).then_some(base)
    }

    /// The number of the pair, none where the table is full.
    pub fn add(&mut self, module: u32, name: &'a [u8], base: Base<'a>) -> u32 {
        let of = &mut self.modules[module as usize];
        if of.pairs > self.most {
            return NONE;
        }
        let (pair, number) = (self.pairs.len() as u32, self.names.len() as u32);
        let name = match self.numbers.entry((module, name)) {
            Entry::Vacant(entry) => {
                entry.insert(number);
                match of.names.1 {
                    NONE => of.names.0 = number,
                    last => self.names[last as usize].next = number,
                }
                of.names.1 = number;
                let (prefix, runtime, alone) = (NONE, NONE, true);
                self.names.push(Name { name, first: pair, base, prefix, runtime, alone, next: NONE });
                number
            }
            Entry::Occupied(entry) => {
                let number = *entry.get();
                let name = &mut self.names[number as usize];
                if name.base == base {
                    return name.first;
                }
                match self.more.entry((number, base)) {
                    Entry::Occupied(entry) => return *entry.get(),
                    Entry::Vacant(entry) => entry.insert(pair),
                };
                name.alone = false;
                number
            }
        };
        match base {
            None => self.names[name as usize].prefix = pair,
            Some(DAFNY_RUNTIME) => self.names[name as usize].runtime = pair,
            _ => {}
        }
        self.pairs.push(name);
        of.pairs += 1;
        pair
    }

    pub fn find(&self, module: u32, name: &'a [u8], base: Base<'a>) -> u32 {
        let Some(&number) = self.numbers.get(&(module, name)) else { return NONE };
        let name = &self.names[number as usize];
        if name.base == base {
            return name.first;
        }
        if name.alone {
            return NONE;
        }
        self.more.get(&(number, base)).copied().unwrap_or(NONE)
    }

    /// Whether its base is the one chosen for its name.
    pub fn is_chosen(&self, pair: u32) -> bool {
        pair != NONE && self.names[self.pairs[pair as usize] as usize].chosen() == pair
    }

    /// Name and base of each use, in order.
    pub fn uses(&self, module: u32) -> impl Iterator<Item = (&'a [u8], &'a [u8])> + '_ {
        let name = |number: u32| self.names.get(number as usize);
        let first = name(self.modules[module as usize].names.0);
        iter::successors(first, move |it| name(it.next)).filter_map(|it| Some((it.name, it.use_base()?)))
    }
}

impl<'a> Name<'a> {
    /// The pair chosen, if any.
    fn chosen(&self) -> u32 {
        match (self.alone, self.prefix) {
            (true, _) => self.first,
            (false, NONE) => self.runtime,
            (false, prefix) => prefix,
        }
    }

    /// The base chosen, if any but the prefix is.
    fn use_base(&self) -> Base<'a> {
        match self.chosen() {
            NONE => None,
            chosen if chosen == self.first => self.base,
            chosen if chosen == self.prefix => None,
            _ => Some(DAFNY_RUNTIME),
        }
    }
}

/// A quick hash. A module has so few names that a card made against it does no harm.
#[derive(Default)]
pub struct Mix(u64);

pub type Quick = BuildHasherDefault<Mix>;

impl Mix {
    fn mix(&mut self, word: u64) {
        self.0 = (self.0.rotate_left(5) ^ word).wrapping_mul(0x517c_c1b7_2722_0a95);
    }
}

impl Hasher for Mix {
    fn write(&mut self, bytes: &[u8]) {
        let mut words = bytes.chunks_exact(8);
        for word in &mut words {
            self.mix(u64::from_le_bytes(word.try_into().unwrap()));
        }
        let rest = words.remainder();
        if !rest.is_empty() {
            self.mix(rest.iter().fold(0, |word, &byte| word << 8 | byte as u64));
        }
    }

    fn write_u32(&mut self, word: u32) {
        self.mix(word as u64);
    }

    fn write_usize(&mut self, word: usize) {
        self.mix(word as u64);
    }

    fn finish(&self) -> u64 {
        self.0.rotate_left(26)
    }
}
