//! Shortening by a walk over the card's bytes, no tree being built. One pass reads, collects and notes
//! where paths and modules' bodies stand. What is replaced then follows from the names, in a hash map whose
//! hashes `S` makes, and so does the output's length; the second pass copies the card, going only to what
//! changes. It shares nothing with the proved code.
mod names;
mod write;

use compare::rows::{Place, Shape, What, DECLARATIONS, KEPT, MODULE, PATH, ROWS, TEXT};
use compare::{most_pairs, Answer, Listed, Operation, Refusal, MOST_CARD, MOST_ROOT, WORDS};
pub use names::Quick;
use names::{Names, NONE};
use std::hash::BuildHasher;

/// Something that may change.
struct Point {
    /// Where its record stands in the card.
    at: u32,
    module: u32,
    sort: Sort,
}

#[derive(Clone, Copy)]
enum Sort {
    /// The List of a module's body.
    Body,
    /// A TypeFromPath: the pair collected, and how many times it would be wrapped.
    Type(u32, u8),
    /// An ExprFromPath: the pair collected.
    Expr(u32),
}

struct Walk<'a, S> {
    operation: Operation,
    bytes: &'a [u8],
    names: Names<'a, S>,
    points: Vec<Point>,
    /// The innermost around what is read.
    module: u32,
    refusal: Refusal,
}

/// What holds of the records in a record.
#[derive(Clone, Copy)]
struct Around {
    collects: bool,
    /// How many times a path type is wrapped, and by how much that grows in a type or an expression.
    wraps: u8,
    grows: u8,
}

const OUTSIDE: Around = Around { collects: true, wraps: 1, grows: 0 };

/// Where the record at this place ends, in sound bytes.
fn end_of(bytes: &[u8], at: usize) -> usize {
    let length = bytes[at..].first_chunk().map_or(0, |&length| u32::from_le_bytes(length));
    at + 4 + length as usize
}

/// Base and name of the path type or path expression at this place, in sound bytes.
fn path_at(bytes: &[u8], at: usize) -> (&[u8], &[u8]) {
    let base = end_of(bytes, at + 12);
    (&bytes[at + 12..base], &bytes[base + 6..end_of(bytes, at)])
}

impl<S: BuildHasher + Default> Walk<'_, S> {
    fn refuse<T>(&mut self, number: u32, place: usize) -> Option<T> {
        self.refusal = (number, place as u32);
        None
    }

    fn finish(&mut self, at: usize, end: usize) -> Option<()> {
        if at < end {
            return self.refuse(7, at);
        }
        Some(())
    }

    /// The record at this place: kind, start of its content and end.
    #[inline(always)]
    fn head(
        &mut self,
        at: usize,
        end: usize,
        first: u8,
        last: u8,
        levels: u32,
    ) -> Option<(usize, usize, usize)> {
        let left = &self.bytes[at..end];
        let Some(&[a, b, c, d, k, l]) = left.first_chunk() else { return self.refuse(4, at) };
        let length = u32::from_le_bytes([a, b, c, d]) as usize;
        if length < 2 || length > left.len() - 4 {
            return self.refuse(4, at);
        }
        let kind = u16::from_le_bytes([k, l]);
        if kind < first as u16 || kind > last as u16 {
            return self.refuse(5, at);
        }
        if levels == 0 {
            return self.refuse(6, at);
        }
        Some((kind as usize, at + 6, at + 4 + length))
    }

    /// Text or Kept: where it ends.
    #[inline(always)]
    fn leaf(&mut self, place: &Place, at: usize, end: usize, levels: u32) -> Option<usize> {
        let (_, _, stop) = self.head(at, end, place.first, place.last, levels)?;
        Some(stop)
    }

    fn path(&mut self, at: usize, end: usize, levels: u32) -> Option<usize> {
        let (kind, mut inside, stop) = self.head(at, end, PATH.first, PATH.last, levels)?;
        if kind == 0x13 {
            let name = self.path(inside, stop, levels - 1)?;
            inside = self.leaf(&TEXT, name, stop, levels - 1)?;
            if let [] | [b'!'] = self.bytes[name + 6..inside] {
                return self.refuse(11, name);
            }
        }
        self.finish(inside, stop)?;
        Some(stop)
    }

    /// What stands at a place, a List or not: where it ends.
    #[inline(always)]
    fn field(
        &mut self,
        place: &'static Place,
        at: usize,
        end: usize,
        levels: u32,
        around: Around,
    ) -> Option<usize> {
        if place.shape == Shape::One {
            return self.record(place, at, end, levels, around);
        }
        let (_, mut inside, stop) = self.head(at, end, 0x02, 0x02, levels)?;
        while inside < stop {
            inside = self.record(place, inside, stop, levels - 1, around)?;
            if place.shape == Shape::Option {
                self.finish(inside, stop)?;
            }
        }
        Some(stop)
    }

    fn record(
        &mut self,
        place: &'static Place,
        at: usize,
        end: usize,
        levels: u32,
        mut around: Around,
    ) -> Option<usize> {
        let (kind, inside, stop) = self.head(at, end, place.first, place.last, levels)?;
        match place.what {
            What::Bytes => return Some(stop),
            What::Own => {
                self.names.add(self.module, &self.bytes[inside..stop], None);
                return Some(stop);
            }
            What::Path => return self.path(at, end, levels),
            What::Module => {
                self.module(kind, at, stop, levels - 1)?;
                return Some(stop);
            }
            What::Fields => {}
            What::Unseen => around.collects = false,
            What::Counted => around.grows = (self.operation == Operation::Upstream) as u8,
        }
        if kind == 0x2D || kind == 0x5C {
            let after = self.path(inside, stop, levels - 1)?;
            self.finish(after, stop)?;
            self.point(kind, at, around);
            return Some(stop);
        }
        if kind < 0x60 {
            around.wraps += around.grows;
        }
        let mut after = inside;
        for place in ROWS[kind] {
            after = self.field(place, after, stop, levels - 1, around)?;
        }
        self.finish(after, stop)?;
        if kind == 0x7B || kind == 0x7C {
            self.own(kind, inside);
        }
        Some(stop)
    }

    /// The own name of a Trait or a TopFn that has been read. When it is collected doesn't show.
    fn own(&mut self, kind: usize, inside: usize) {
        let mut at = (0..3).fold(inside, |at, _| end_of(self.bytes, at));
        if kind == 0x7B {
            if self.bytes[at + 4] == 0x2E {
                at += 6;
            }
            if self.bytes[at + 4] != 0x2C {
                return;
            }
        }
        let name = at + 6;
        self.names.add(self.module, &self.bytes[name + 6..end_of(self.bytes, name)], None);
    }

    fn module(&mut self, kind: usize, at: usize, stop: usize, levels: u32) -> Option<()> {
        let mut inside = at + 6;
        if kind == 0x60 {
            inside = self.leaf(&TEXT, inside, stop, levels)?;
            inside = self.leaf(&KEPT, inside, stop, levels)?;
        }
        let name = inside + 6;
        inside = self.leaf(&TEXT, inside, stop, levels)?;
        let name = &self.bytes[name..inside];
        let parent = self.module;
        if parent != NONE {
            self.names.add(parent, name, None);
        }
        if kind == 0x60 {
            self.module = self.names.enter(self.operation, parent, name, at);
            self.points.push(Point { at: inside as u32, module: self.module, sort: Sort::Body });
            inside = self.field(&DECLARATIONS, inside, stop, levels, OUTSIDE)?;
            self.module = parent;
        }
        self.finish(inside, stop)
    }

    /// A path type or a path expression that has been read.
    fn point(&mut self, kind: usize, at: usize, around: Around) {
        const SELF: &[u8] = &[2, 0, 0, 0, 0x12, 0];
        if self.bytes[at + 10] != 0x13 {
            return;
        }
        let (base, name) = path_at(self.bytes, at);
        if base == SELF {
            return;
        }
        let collected = match name {
            [unmarked @ .., b'!'] if kind == 0x5C => unmarked,
            _ => name,
        };
        let pair = match around.collects {
            true => self.names.add(self.module, collected, self.names.base(self.module, base)),
            false => NONE,
        };
        let sort = match kind {
            0x2D => Sort::Type(pair, around.wraps),
            _ => Sort::Expr(pair),
        };
        self.points.push(Point { at: at as u32, module: self.module, sort });
    }

    /// Whether a point changes, and then by how many bytes the output grows.
    fn growth(&self, point: &Point) -> Option<isize> {
        let at = point.at as usize;
        let replaced = |pair, name, base| match pair {
            NONE => self.names.is_chosen(self.names.find(point.module, name, base)),
            pair => self.names.is_chosen(pair),
        };
        let path = || {
            let (base, name) = path_at(self.bytes, at);
            (self.names.base(point.module, base), name)
        };
        match point.sort {
            Sort::Body => {
                let uses = self.names.uses(point.module).map(|(name, base)| write::use_length(name, base));
                Some(uses.sum::<usize>() as isize).filter(|&sum| sum > 0)
            }
            Sort::Type(pair, wraps) => {
                let (base, name) = path();
                replaced(pair, name, base).then_some(wraps as isize * write::wrap_length(name) as isize)
            }
            Sort::Expr(pair) => {
                let (base, name) = path();
                let short = match name {
                    [unmarked @ .., b'!'] => replaced(pair, unmarked, base) || replaced(NONE, name, base),
                    _ => replaced(pair, name, base),
                };
                let length = end_of(self.bytes, at) - at;
                short.then_some(write::identifier_length(name) as isize - length as isize)
            }
        }
    }
    /// How many entries of the list a point has that changes.
    fn entries(&self, point: &Point) -> usize {
        match point.sort {
            Sort::Body => self.names.uses(point.module).count(),
            Sort::Type(..) | Sort::Expr(_) => 1,
        }
    }
}

/// The output's length, the output being at the front of `out`; or a refusal's number and place.
pub fn shorten<S: BuildHasher + Default>(
    operation: Operation,
    card: &[u8],
    root: &[u8],
    out: &mut [u8],
    words: usize,
) -> Answer {
    let (length, _) = run::<S>(operation, card, root, out, words, None)?;
    Ok(length)
}

/// The same with a list: the number of its entries too, each two words, at the front of `list`.
pub fn shorten_places<S: BuildHasher + Default>(
    operation: Operation,
    card: &[u8],
    root: &[u8],
    out: &mut [u8],
    words: usize,
    list: &mut [u32],
) -> Listed {
    run::<S>(operation, card, root, out, words, Some(list))
}

#[inline(always)]
fn run<S: BuildHasher + Default>(
    operation: Operation,
    card: &[u8],
    root: &[u8],
    out: &mut [u8],
    words: usize,
    list: Option<&mut [u32]>,
) -> Listed {
    if words < WORDS {
        return Err((1, 0));
    }
    if card.len() > MOST_CARD {
        return Err((2, 0));
    }
    let mut walk = Walk {
        operation,
        bytes: root,
        names: Names::<S>::new(root, most_pairs(words)),
        points: Vec::new(),
        module: NONE,
        refusal: (0, 0),
    };
    if root.len() > MOST_ROOT || walk.path(0, root.len(), 8) != Some(root.len()) {
        return Err((3, 0));
    }
    walk.bytes = card;
    let read = walk.record(&MODULE, 0, card.len(), 48, OUTSIDE);
    if read.and_then(|end| walk.finish(end, card.len())).is_none() {
        return Err(walk.refusal);
    }
    if let Some(full) = walk.names.full() {
        return Err((8, full.place as u32));
    }
    let mut length = card.len();
    let mut points = std::mem::take(&mut walk.points);
    points.retain(|point| match walk.growth(point) {
        Some(growth) => {
            length = length.wrapping_add_signed(growth);
            true
        }
        None => false,
    });
    let out = out.get_mut(..length).ok_or((9, 0))?;
    let list = match list {
        Some(list) => {
            let entries: usize = points.iter().map(|point| walk.entries(point)).sum();
            list.get_mut(..2 * entries).ok_or((10, 0))?
        }
        None => &mut [],
    };
    write::write(card, &walk.names, &points, out, list);
    Ok((length, list.len() / 2))
}
