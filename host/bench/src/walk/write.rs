//! The second pass: the card copied with its changes.
use super::names::Names;
use super::{end_of, path_at, Point, Sort};
use compare::Mark;
use std::hash::BuildHasher;
use std::slice::ChunksExactMut;

/// A Text.
fn text_length(name: &[u8]) -> usize {
    6 + name.len()
}

/// A TIdentifier or an Identifier.
pub fn identifier_length(name: &[u8]) -> usize {
    6 + text_length(name)
}

/// What one TSynonym adds.
pub fn wrap_length(name: &[u8]) -> usize {
    6 + identifier_length(name)
}

/// UseDecl, Use, Kept and PMemberSelect.
pub fn use_length(name: &[u8], base: &[u8]) -> usize {
    6 + 6 + 7 + 6 + base.len() + text_length(name)
}

struct Writer<'w, S> {
    card: &'w [u8],
    names: &'w Names<'w, S>,
    /// What is yet to change, in the card's order.
    points: &'w [Point],
    out: &'w mut [u8],
    at: usize,
    /// The entries of the list that are yet to be written, none where there is no list.
    entries: ChunksExactMut<'w, u32>,
}

/// The points, at least one if any, lie in the card; the output is as long as `out`, and `list` as long as
/// its entries or empty.
pub fn write<S: BuildHasher + Default>(
    card: &[u8],
    names: &Names<S>,
    points: &[Point],
    out: &mut [u8],
    list: &mut [u32],
) {
    if points.is_empty() {
        out.copy_from_slice(card);
        return;
    }
    Writer { card, names, points, out, at: 0, entries: list.chunks_exact_mut(2) }.record(0);
}

impl<S: BuildHasher + Default> Writer<'_, S> {
    fn put(&mut self, bytes: &[u8]) {
        self.out[self.at..][..bytes.len()].copy_from_slice(bytes);
        self.at += bytes.len();
    }

    /// The head of a record that has so many bytes in all.
    fn head(&mut self, kind: u8, bytes: usize) {
        let [a, b, c, d] = (bytes as u32 - 4).to_le_bytes();
        self.put(&[a, b, c, d, kind, 0]);
    }

    fn text(&mut self, name: &[u8]) {
        self.head(0x01, text_length(name));
        self.put(name);
    }

    fn identifier(&mut self, kind: u8, name: &[u8]) {
        self.head(kind, identifier_length(name));
        self.text(name);
    }

    /// What comes next is an entry of the list.
    fn note(&mut self, mark: Mark) {
        if let Some(entry) = self.entries.next() {
            entry.copy_from_slice(&[self.at as u32, mark as u32]);
        }
    }

    /// The record at this place of the card, in which the first point lies.
    fn record(&mut self, at: usize) {
        let card = self.card;
        let end = end_of(card, at);
        let mut uses = None;
        if let Some((point, points)) = self.points.split_first().filter(|(p, _)| p.at as usize == at) {
            self.points = points;
            match point.sort {
                Sort::Body => uses = Some(point.module),
                Sort::Type(_, wraps) => {
                    let name = path_at(card, at).1;
                    self.note(Mark::Type);
                    for inside in (0..wraps as usize).rev() {
                        self.head(0x37, end - at + (inside + 1) * wrap_length(name));
                        self.identifier(0x2C, name);
                    }
                    return self.put(&card[at..end]);
                }
                Sort::Expr(_) => {
                    self.note(Mark::Expr);
                    return self.identifier(0x42, path_at(card, at).1);
                }
            }
        }
        let start = self.at;
        self.put(&card[at..at + 6]);
        if let Some(module) = uses {
            let names = self.names;
            names.uses(module).for_each(|(name, base)| self.put_use(name, base));
        }
        let (mut copied, mut child) = (at + 6, at + 6);
        while let Some(next) = self.points.first().map(|p| p.at as usize).filter(|&next| next < end) {
            let after = end_of(card, child);
            if next < after {
                self.put(&card[copied..child]);
                self.record(child);
                copied = after;
            }
            child = after;
        }
        self.put(&card[copied..end]);
        let length = (self.at - start - 4) as u32;
        self.out[start..start + 4].copy_from_slice(&length.to_le_bytes());
    }

    fn put_use(&mut self, name: &[u8], base: &[u8]) {
        let bytes = use_length(name, base);
        self.note(Mark::Use);
        self.head(0x6A, bytes);
        self.head(0x80, bytes - 6);
        self.head(0x03, 7);
        self.put(&[1]);
        self.head(0x13, bytes - 19);
        self.put(base);
        self.text(name);
    }
}
