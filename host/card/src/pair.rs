//! A card and what shortening makes of it, side by side.

use crate::records::{self, Node, Reading};
use crate::show::{self, Line, Look, Shown, Tint, Tints};
use std::collections::HashMap;
use vegashol::{Mark, Reason, Refusal};

/// What is shortened, and how.
#[derive(Clone, Debug)]
pub struct Shortening {
    /// A path's record, in which the outermost module stands.
    pub root: Vec<u8>,
    pub straight: bool,
}

/// A line before and what it is after; only after, where it was put in.
#[derive(Clone, Debug)]
pub struct Row {
    pub before: Option<Line>,
    pub after: Option<Line>,
}

#[derive(Debug)]
pub struct Pair {
    pub rows: Vec<Row>,
    /// The shortened card.
    pub output: Vec<u8>,
    /// How many names were shortened, and how many uses put in.
    pub names: usize,
    pub uses: usize,
}

/// A card that was refused: as far as it can be read.
#[derive(Debug)]
pub struct Refused {
    pub refusal: Refusal,
    pub shown: Shown,
}

impl Shortening {
    pub fn of(&self, card: &[u8]) -> Result<Pair, Box<Refused>> {
        let reading = records::read(card);
        // So much that lent memory is never what a card is refused for.
        let bytes = card.len().min(vegashol::MOST_CARD);
        let mut out = vec![0; vegashol::MOST_TIMES * bytes];
        let mut list = vec![0; bytes / 6];
        let mut work = vec![0; vegashol::MOST_WORK];
        let call = if self.straight { vegashol::straight_places_work } else { vegashol::shorten_places_work };
        let listed = match call(card, &self.root, &mut out, &mut work, &mut list) {
            Ok(listed) => listed,
            Err(refusal) => return Err(Box::new(refused(&reading, refusal))),
        };
        let output = listed.output.to_vec();
        let after = records::read_output(&output);
        if let Some(refusal) = after.refusal {
            return Err(Box::new(refused(&after, refusal)));
        }
        let marks: HashMap<usize, Mark> =
            listed.places.iter().map(|place| (place.offset, place.mark)).collect();
        let uses = marks.values().filter(|mark| **mark == Mark::Use).count();
        let names = marks.len() - uses;
        let rows = match (&reading.tree, &after.tree) {
            (Some(before), Some(after)) => rows(before, after, &marks),
            _ => Vec::new(),
        };
        Ok(Pair { rows, output, names, uses })
    }
}

pub fn refused(reading: &Reading, refusal: Refusal) -> Refused {
    let shown = match refusal.reason {
        reason if reason.has_place() => show::show_refused(reading, refusal.place),
        // Of a root that is refused nothing stands in the card.
        Reason::BadRoot | Reason::LongCard => Shown::default(),
        _ => reading.tree.as_ref().map(|tree| show::show(tree, &Look::default())).unwrap_or_default(),
    };
    Refused { refusal, shown }
}

fn rows(before: &Node, after: &Node, marks: &HashMap<usize, Mark>) -> Vec<Row> {
    let (mut long, mut short) = (Tints::new(), Tints::new());
    tint(before, after, marks, &mut long, &mut short);
    let before = show::show(before, &Look { tints: long, ..Look::default() });
    let after = show::show(after, &Look { tints: short, ..Look::default() });
    let mut before = before.lines.into_iter();
    let mut rows: Vec<Row> = after
        .lines
        .into_iter()
        .map(|line| Row { before: if line.is_put_in() { None } else { before.next() }, after: Some(line) })
        .collect();
    rows.extend(before.map(|line| Row { before: Some(line), after: None }));
    rows
}

/// Goes through both as `docs/FORMAT.md` does under "Points and looking up"; what was changed, the list of places says.
fn tint(before: &Node, after: &Node, marks: &HashMap<usize, Mark>, long: &mut Tints, short: &mut Tints) {
    if marks.contains_key(&after.at) {
        let path = before.kids.first().map(show::path).unwrap_or_default();
        long.insert(before.at, Tint::Long);
        short.insert(after.at, Tint::Short(path.into()));
        return;
    }
    let (put_in, others): (Vec<&Node>, Vec<&Node>) =
        after.kids.iter().partition(|kid| marks.get(&kid.at) == Some(&Mark::Use));
    short.extend(put_in.iter().map(|kid| (kid.at, Tint::Use)));
    for (before, after) in before.kids.iter().zip(others) {
        tint(before, after, marks, long, short);
    }
}
