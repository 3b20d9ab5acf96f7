//! Records in bytes, read into a tree and written from one.

use crate::kinds::{self, Class, Field, Shape, What};
use std::borrow::Cow;
use vegashol::{Reason, Refusal};

/// The deepest record of a card.
pub const MOST_DEPTH: usize = 48;

#[derive(Clone, Debug, PartialEq, Eq)]
pub struct Node<'c> {
    /// Where it starts: in the card, or in the text that it was made from.
    pub at: usize,
    pub kind: u16,
    /// The content of a Text or a Kept.
    pub bytes: Cow<'c, [u8]>,
    /// The fields, or a List's records.
    pub kids: Vec<Node<'c>>,
    /// How many records deep it is by itself.
    pub height: usize,
    /// Reading was refused right behind the last of the kids.
    pub broken: bool,
}

impl<'c> Node<'c> {
    pub fn leaf(at: usize, kind: u16, bytes: impl Into<Cow<'c, [u8]>>) -> Node<'c> {
        Node { at, kind, bytes: bytes.into(), kids: Vec::new(), height: 1, broken: false }
    }

    pub fn branch(at: usize, kind: u16, kids: Vec<Node<'c>>) -> Node<'c> {
        let height = 1 + kids.iter().map(|kid| kid.height).max().unwrap_or(0);
        Node { at, kind, bytes: Cow::Borrowed(&[]), kids, height, broken: false }
    }

    /// Its record's bytes behind those already there. `starts` gets where each record starts there and `at`.
    pub fn write(&self, out: &mut Vec<u8>, starts: &mut Vec<(usize, usize)>) {
        let start = out.len();
        starts.push((start, self.at));
        out.extend([0; 4]);
        out.extend(self.kind.to_le_bytes());
        out.extend(&*self.bytes);
        for kid in &self.kids {
            kid.write(out, starts);
        }
        let length = (out.len() - start - 4) as u32;
        out[start..start + 4].copy_from_slice(&length.to_le_bytes());
    }

    pub fn to_bytes(&self) -> Vec<u8> {
        let mut out = Vec::new();
        self.write(&mut out, &mut Vec::new());
        out
    }
}

/// A tree, as far as it can be read, and what is wrong with the rest.
#[derive(Debug)]
pub struct Reading<'c> {
    pub tree: Option<Node<'c>>,
    pub refusal: Option<Refusal>,
}

/// Reads a card, by the rules of the console's answers 2, 4 to 7 and 11.
pub fn read(card: &[u8]) -> Reading<'_> {
    if card.len() > vegashol::MOST_CARD {
        let refusal = Some(Refusal { reason: Reason::LongCard, place: 0 });
        return Reading { tree: None, refusal };
    }
    Reader { card, depth: MOST_DEPTH, nameless: false, refusal: None }.outermost(kinds::MODULE)
}

/// Reads a shortened card, which may be longer and deeper than a card, and have a use of a name that is `!`.
pub fn read_output(output: &[u8]) -> Reading<'_> {
    Reader { card: output, depth: 4 * MOST_DEPTH, nameless: true, refusal: None }.outermost(kinds::MODULE)
}

struct Reader<'c> {
    card: &'c [u8],
    depth: usize,
    nameless: bool,
    refusal: Option<Refusal>,
}

impl<'c> Reader<'c> {
    fn outermost(mut self, class: Class) -> Reading<'c> {
        let end = self.card.len();
        let tree = self.record(0, end, Shape::One, What::Of(class), 1, false);
        if let (Some(tree), None) = (&tree, self.refusal) {
            self.end(tree.at + self.whole(tree.at), end);
        }
        Reading { tree, refusal: self.refusal }
    }

    fn refuse(&mut self, reason: Reason, place: usize) {
        self.refusal = Some(Refusal { reason, place });
    }

    /// How many bytes the record here has. Its length has been seen to be right.
    fn whole(&self, at: usize) -> usize {
        let length = self.card[at..at + 4].iter().rev().fold(0, |sum, byte| sum << 8 | *byte as usize);
        4 + length
    }

    fn end(&mut self, at: usize, end: usize) {
        if at < end {
            self.refuse(Reason::LeftOver, at);
        }
    }

    /// None where the record itself is refused; where one inside of it is, what there is of it.
    fn record(
        &mut self,
        at: usize,
        end: usize,
        shape: Shape,
        what: What,
        depth: usize,
        named: bool,
    ) -> Option<Node<'c>> {
        if end - at < 6 || self.whole(at) < 6 || self.whole(at) > end - at {
            self.refuse(Reason::ShortRecord, at);
            return None;
        }
        let kind = u16::from_le_bytes([self.card[at + 4], self.card[at + 5]]);
        let stop = at + self.whole(at);
        let content = &self.card[at + 6..stop];
        let may_stand = match shape {
            Shape::One => what.class().has(kind),
            Shape::Option | Shape::Seq(_) => kind == kinds::LIST,
        };
        if !may_stand {
            self.refuse(Reason::WrongKind, at);
            return None;
        }
        if depth > self.depth {
            self.refuse(Reason::TooDeep, at);
            return None;
        }
        if named && !self.nameless && matches!(content, b"" | b"!") {
            self.refuse(Reason::NoName, at);
            return None;
        }
        if kind == kinds::TEXT || kind == kinds::KEPT {
            return Some(Node::leaf(at, kind, content));
        }
        let mut kids = Vec::new();
        let mut next = at + 6;
        let mut broken = false;
        let mut fields = kinds::rule(kind).map_or(&[] as &[Field], |rule| rule.kind.fields).iter();
        loop {
            let due = match (kind, shape) {
                (kinds::LIST, Shape::Option) if next < stop && kids.is_empty() => Some((Shape::One, what)),
                (kinds::LIST, Shape::Seq(_)) if next < stop => Some((Shape::One, what)),
                (kinds::LIST, _) => None,
                _ => fields.next().map(|field| (field.shape, field.what)),
            };
            let Some((shape, what)) = due else {
                self.end(next, stop);
                broken = next < stop;
                break;
            };
            let named = kind == kinds::MEMBER && kids.len() == 1;
            match self.record(next, stop, shape, what, depth + 1, named) {
                Some(kid) => {
                    next += self.whole(next);
                    kids.push(kid);
                }
                None => broken = true,
            }
            if self.refusal.is_some() {
                break;
            }
        }
        Some(Node { broken, ..Node::branch(at, kind, kids) })
    }
}
