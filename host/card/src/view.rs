//! Lines on a terminal.

use crate::pair::{Pair, Row};
use crate::show::{Line, Shown, Tint, INDENT};
use vegashol::Refusal;

/// How a terminal is written to.
#[derive(Clone, Copy, Debug)]
pub struct Screen {
    pub width: usize,
    pub color: bool,
}

const LEAST_WIDTH: usize = 24;
const MOST_WIDTH: usize = 1_000;
/// The column of offsets.
const OFFSET: usize = 7;

#[derive(Clone, Copy, PartialEq)]
enum Style {
    Plain,
    Long,
    Short,
    Use,
    Head,
}

impl Style {
    fn code(self) -> &'static str {
        match self {
            Style::Plain => "",
            Style::Long => "\x1b[33m",
            Style::Short => "\x1b[1;32m",
            Style::Use => "\x1b[36m",
            Style::Head => "\x1b[2m",
        }
    }
}

/// Letters, each with its style, behind so many blanks.
struct Strip {
    indent: usize,
    letters: Vec<(char, Style)>,
}

fn letters(text: &str, style: Style) -> Vec<(char, Style)> {
    text.chars().map(|letter| (letter, style)).collect()
}

impl Screen {
    /// Before and after, declarations level with each other.
    pub fn pair(&self, pair: &Pair, bytes: usize) -> String {
        let mut out = String::new();
        let head = |title: &str, bytes: usize| {
            let letters = letters(&format!("{title}, {}", count(bytes, "byte")), Style::Head);
            in_rows(&letters, 0, self.column())
        };
        self.row(&mut out, &head("before", bytes), &head("after", pair.output.len()), '|');
        for row in &pair.rows {
            let column =
                |line: &Option<Line>| line.as_ref().map_or(vec![], |line| self.wrapped(line, self.column()));
            let Row { before, after } = row;
            let put_in = after.as_ref().is_some_and(Line::is_put_in);
            self.row(&mut out, &column(before), &column(after), if put_in { '+' } else { '|' });
        }
        let legend = if self.color { "" } else { " (~ a shortened name, + a use put in)" };
        let (names, uses) = (count(pair.names, "name"), count(pair.uses, "use"));
        out.push_str(&format!("{names} shortened, {uses} put in{legend}\n"));
        out
    }

    /// A tree, with a mark at the place of a refusal. `bytes` puts the offset of each line's record ahead of it.
    pub fn tree(&self, shown: &Shown, refusal: Option<Refusal>, bytes: bool) -> String {
        let mut out = String::new();
        let ahead = |at: Option<usize>| match (bytes, at) {
            (false, _) => String::new(),
            (true, None) => " ".repeat(OFFSET),
            (true, Some(at)) => format!("{at:>5}  "),
        };
        let width = if bytes { self.width() - OFFSET } else { self.width() };
        for (i, line) in shown.lines.iter().enumerate() {
            let rows = self.wrapped(line, width);
            let mut mark =
                shown.mark.filter(|(marked, _)| *marked == i).map(|(_, column)| column).zip(refusal);
            for (j, row) in rows.iter().enumerate() {
                if !row.letters.is_empty() {
                    out.push_str(&ahead(line.at.filter(|_| j == 0)));
                    self.strip(&mut out, row);
                    out.push('\n');
                }
                let Some((column, refusal)) = mark else { continue };
                let here = row.letters.len();
                mark = Some((column.saturating_sub(here), refusal));
                if column <= here || j + 1 == rows.len() {
                    out.push_str(&ahead(None));
                    out.push_str(&" ".repeat(row.indent + column.min(here)));
                    out.push_str(&format!("^ {}\n", self::mark(refusal)));
                    mark = None;
                }
            }
        }
        out
    }

    fn width(&self) -> usize {
        self.width.max(LEAST_WIDTH)
    }

    fn column(&self) -> usize {
        (self.width().min(MOST_WIDTH) - 3) / 2
    }

    /// A row that goes on from the one above has `:` between, so that no blanks in a card's text make a line of their own.
    fn row(&self, out: &mut String, before: &[Strip], after: &[Strip], between: char) {
        for i in 0..before.len().max(after.len()) {
            let between = if i == 0 { between } else { ':' };
            let width = before.get(i).map_or(0, |strip| self.strip(out, strip));
            out.push_str(&" ".repeat(self.column().saturating_sub(width)));
            out.push_str(&format!(" {between}"));
            if let Some(strip) = after.get(i) {
                out.push(' ');
                self.strip(out, strip);
            }
            out.push('\n');
        }
    }

    /// Answers how wide it is.
    fn strip(&self, out: &mut String, strip: &Strip) -> usize {
        out.push_str(&" ".repeat(strip.indent));
        let mut style = Style::Plain;
        let end = strip.letters.iter().rposition(|(letter, _)| *letter != ' ').map_or(0, |last| last + 1);
        for (letter, next) in &strip.letters[..end] {
            if self.color && *next != style {
                out.push_str(if style == Style::Plain { "" } else { "\x1b[0m" });
                out.push_str(next.code());
                style = *next;
            }
            out.push(*letter);
        }
        out.push_str(if style == Style::Plain { "" } else { "\x1b[0m" });
        strip.indent + end
    }

    /// A line with its tints, in rows.
    fn wrapped(&self, line: &Line, width: usize) -> Vec<Strip> {
        let mut all = Vec::new();
        for span in &line.spans {
            let style = match &span.tint {
                None => Style::Plain,
                Some(Tint::Long) => Style::Long,
                Some(Tint::Short(_)) => Style::Short,
                Some(Tint::Use) => Style::Use,
            };
            if !self.color && matches!(style, Style::Long | Style::Short) {
                all.push(('~', style));
            }
            all.extend(letters(&span.text, style));
        }
        in_rows(&all, line.indent, width)
    }
}

/// In rows of at most so many letters, the further ones further in.
fn in_rows(letters: &[(char, Style)], indent: usize, width: usize) -> Vec<Strip> {
    let indent = (INDENT * indent).min(width / 3);
    let mut rows = Vec::new();
    let mut at = 0;
    loop {
        let indent = if rows.is_empty() { indent } else { (indent + INDENT).min(width / 2) };
        let rest = &letters[at..];
        let room = width - indent;
        let end = if rest.len() <= room { rest.len() } else { break_at(&rest[..room]) };
        rows.push(Strip { indent, letters: rest[..end].to_vec() });
        at += end;
        if at == letters.len() {
            return rows;
        }
    }
}

/// Behind the last blank, unless that leaves most of the room; else behind a bracket, between a path's names, or where the room
/// ends.
fn break_at(letters: &[(char, Style)]) -> usize {
    let letter = |at: usize| letters[at].0;
    let last = |fits: &dyn Fn(usize) -> bool| {
        (1..letters.len()).rev().find(|at| fits(*at)).filter(|at| *at > letters.len() / 4)
    };
    last(&|at| letter(at - 1) == ' ')
        .or_else(|| last(&|at| matches!(letter(at - 1), '(' | '<')))
        .or_else(|| last(&|at| letter(at) == ':' && !matches!(letter(at - 1), ':' | '~')))
        .unwrap_or(letters.len())
}

/// A refusal beside the place that it is about.
pub fn mark(refusal: Refusal) -> String {
    let line = refusal.to_string();
    line.strip_prefix("refused, ").unwrap_or(&line).to_string()
}

pub fn count(n: usize, what: &str) -> String {
    format!("{n} {what}{}", if n == 1 { "" } else { "s" })
}
