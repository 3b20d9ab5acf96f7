//! A tree as lines of text.

use crate::kinds::{self, rule, Apart, Field, Keeping, Piece, Rule, Shape, Spelling, What};
use crate::records::{Node, Reading};
use crate::spell;
use std::collections::HashMap;
use std::rc::Rc;

/// What sets a record off from the others.
#[derive(Clone, Debug, PartialEq, Eq)]
pub enum Tint {
    /// A path that is shortened.
    Long,
    /// A short name, and the path that it stands for.
    Short(Rc<str>),
    /// A use put in.
    Use,
}

/// By the offsets of their records.
pub type Tints = HashMap<usize, Tint>;

#[derive(Clone, Debug, PartialEq, Eq)]
pub struct Span {
    pub text: String,
    pub tint: Option<Tint>,
}

#[derive(Clone, Debug, Default, PartialEq, Eq)]
pub struct Line {
    pub indent: usize,
    /// The offset of the record that the line starts; none for a closing brace.
    pub at: Option<usize>,
    pub spans: Vec<Span>,
}

impl Line {
    pub fn text(&self) -> String {
        self.spans.iter().map(|span| span.text.as_str()).collect()
    }

    pub fn width(&self) -> usize {
        self.spans.iter().map(|span| span.text.len()).sum()
    }

    /// Whether it is a use put in.
    pub fn is_put_in(&self) -> bool {
        self.spans.iter().any(|span| span.tint == Some(Tint::Use))
    }
}

/// A tree in lines.
#[derive(Clone, Debug, Default)]
pub struct Shown {
    pub lines: Vec<Line>,
    /// The line and the column, without the indent, of the record that was refused.
    pub mark: Option<(usize, usize)>,
}

pub const INDENT: usize = 4;

/// How a tree is shown.
#[derive(Default)]
pub struct Look {
    /// A synonym that is a short name is shown as its display alone; every other in full.
    pub tints: Tints,
    /// The offset of a record to be marked.
    pub mark: Option<usize>,
}

pub fn show(tree: &Node, look: &Look) -> Shown {
    let mut writer = Writer { look, lines: Vec::new(), indent: 0, tint: None, mark: None };
    writer.new_line(Some(tree.at));
    // Where reading was refused, the lines end there.
    let _ = writer.node(tree);
    Shown { lines: writer.lines, mark: writer.mark }
}

/// A card as far as it can be read, marked at the place of the refusal.
pub fn show_refused(reading: &Reading, place: usize) -> Shown {
    let look = Look { mark: Some(place), ..Look::default() };
    let mut shown = reading.tree.as_ref().map(|tree| show(tree, &look)).unwrap_or_default();
    if shown.mark.is_none() {
        if shown.lines.is_empty() {
            shown.lines.push(Line::default());
        }
        let last = shown.lines.len() - 1;
        shown.mark = Some((last, shown.lines[last].width()));
    }
    shown
}

/// A path as Rust writes it.
pub fn path(path: &Node) -> String {
    let mut writer = Writer { look: &Look::default(), lines: Vec::new(), indent: 0, tint: None, mark: None };
    writer.new_line(None);
    let _ = writer.path(path);
    writer.lines.iter().map(Line::text).collect()
}

/// Reading was refused here, and nothing more is to be shown.
struct Stop;

type Going = Result<(), Stop>;

/// What stands around a record that may need parentheses.
#[derive(Clone, Copy, PartialEq)]
enum Place {
    /// Braces, in which statements may stand.
    Braces,
    /// What goes on from the record starts so.
    Before(&'static str),
    /// Something follows that an expression without an end would take in.
    Head,
    /// A comma, an end, or nothing.
    Free,
}

struct Writer<'l> {
    look: &'l Look,
    lines: Vec<Line>,
    indent: usize,
    tint: Option<Tint>,
    mark: Option<(usize, usize)>,
}

impl Writer<'_> {
    fn new_line(&mut self, at: Option<usize>) {
        self.lines.push(Line { indent: self.indent, at, spans: Vec::new() });
    }

    fn put(&mut self, text: &str) {
        let Some(line) = self.lines.last_mut() else { return };
        match line.spans.last_mut() {
            Some(last) if last.tint == self.tint => last.text.push_str(text),
            _ if text.is_empty() => {}
            _ => line.spans.push(Span { text: text.to_string(), tint: self.tint.clone() }),
        }
    }

    fn mark_here(&mut self) {
        if let Some(line) = self.lines.last() {
            self.mark = Some((self.lines.len() - 1, line.width()));
        }
    }

    fn stop(&mut self) -> Going {
        self.mark_here();
        Err(Stop)
    }

    fn node(&mut self, node: &Node) -> Going {
        if self.look.mark == Some(node.at) {
            self.mark_here();
        }
        if self.tint.is_none() {
            if let Some(tint) = self.look.tints.get(&node.at) {
                self.tint = Some(tint.clone());
                let going = self.content(node);
                self.tint = None;
                return going;
            }
        }
        self.content(node)
    }

    fn content(&mut self, node: &Node) -> Going {
        if let Some(display) = self.display(node) {
            return self.node(display);
        }
        let Some(rule) = rule(node.kind) else { return Ok(()) };
        self.pieces(node, rule, &rule.pieces, "")?;
        if node.broken {
            return self.stop();
        }
        Ok(())
    }

    /// `then` is what stands behind the pieces.
    fn pieces(&mut self, node: &Node, rule: &Rule, pieces: &[Piece], then: &'static str) -> Going {
        for (i, piece) in pieces.iter().enumerate() {
            let behind = behind(&pieces[i + 1..], then);
            match piece {
                Piece::Words(words) => self.put(words),
                Piece::Field(n) => {
                    let place = place(rule, &pieces[..i], behind);
                    self.field(node, *n, &rule.kind.fields[*n], place)?
                }
                // A refused record is met in what is optional too.
                Piece::Maybe(n, inner) => match node.kids.get(*n) {
                    Some(list) if !list.kids.is_empty() || list.broken => {
                        self.pieces(node, rule, inner, behind)?
                    }
                    None if node.broken && node.kids.len() == *n => return self.stop(),
                    _ => {}
                },
            }
        }
        Ok(())
    }

    fn field(&mut self, node: &Node, n: usize, field: &Field, place: Place) -> Going {
        let Some(kid) = node.kids.get(n) else {
            return if node.broken && node.kids.len() == n { self.stop() } else { Ok(()) };
        };
        match field.shape {
            Shape::One => self.one(kid, field.what, place),
            Shape::Option => {
                for item in &kid.kids {
                    self.one(item, field.what, place)?;
                }
                if kid.broken {
                    return self.stop();
                }
                Ok(())
            }
            Shape::Seq(apart) => self.list(kid, field.what, apart),
        }
    }

    fn list(&mut self, list: &Node, what: What, apart: Apart) -> Going {
        let lines = matches!(apart, Apart::Lines | Apart::CommaLines);
        if lines {
            self.put("{");
            self.indent += 1;
        }
        for (i, item) in list.kids.iter().enumerate() {
            match apart {
                Apart::Commas | Apart::Tuple if i > 0 => self.put(", "),
                Apart::Pluses if i > 0 => self.put(" + "),
                Apart::Lines | Apart::CommaLines => self.new_line(Some(item.at)),
                _ => {}
            }
            self.one(item, what, Place::Free)?;
            if apart == Apart::CommaLines {
                self.put(",");
            }
        }
        if list.broken {
            match apart {
                Apart::Lines | Apart::CommaLines => self.new_line(None),
                Apart::Commas | Apart::Tuple if !list.kids.is_empty() => self.put(", "),
                Apart::Pluses if !list.kids.is_empty() => self.put(" + "),
                _ => {}
            }
            return self.stop();
        }
        if apart == Apart::Tuple && list.kids.len() == 1 {
            self.put(",");
        }
        if lines {
            self.indent -= 1;
            if !list.kids.is_empty() {
                self.new_line(None);
            }
            self.put("}");
        }
        Ok(())
    }

    fn one(&mut self, node: &Node, what: What, place: Place) -> Going {
        match what {
            What::Text(spelling) => self.text(node, spelling),
            What::Kept(keeping) => self.kept(node, keeping),
            What::Of(kinds::PATH) => return self.path(node),
            What::Of(_) if self.wants_parentheses(node, place) => {
                self.put("(");
                self.node(node)?;
                self.put(")");
            }
            What::Of(_) => return self.node(node),
        }
        Ok(())
    }

    fn path(&mut self, node: &Node) -> Going {
        match node.kids.first() {
            // Global is written where nothing follows it; `::a` has but one `::`.
            Some(base) if node.kind == kinds::MEMBER && base.kind == kinds::GLOBAL && !base.broken => {
                self.put("::");
                match node.kids.get(1) {
                    Some(name) => self.text(name, Spelling::Name),
                    None => return self.stop(),
                }
                if node.broken {
                    return self.stop();
                }
                Ok(())
            }
            _ => self.node(node),
        }
    }

    fn text(&mut self, node: &Node, spelling: Spelling) {
        let spelled = match spelling {
            Spelling::Name => spell::name(&node.bytes),
            Spelling::Quoted => spell::quoted(&node.bytes),
            Spelling::Number => spell::number(&node.bytes),
            Spelling::Size => spell::size(&node.bytes),
            Spelling::Binary => spell::operator(&node.bytes, spell::BINARY),
            Spelling::Unary => {
                let operator = spell::operator(&node.bytes, spell::UNARY);
                match operator.len() {
                    1 => operator,
                    _ => operator + " ",
                }
            }
            Spelling::Doc if node.bytes.is_empty() => String::new(),
            Spelling::Doc => {
                return self.own_line(node, format!("doc {}", spell::quoted(&node.bytes)));
            }
        };
        self.put(&spelled);
    }

    fn kept(&mut self, node: &Node, keeping: Keeping) {
        let bytes = spell::kept(&node.bytes);
        let spelled = match (keeping, &*node.bytes) {
            (Keeping::Shown, _) => bytes,
            (Keeping::Unless | Keeping::Attributes, []) => String::new(),
            (Keeping::Visibility | Keeping::Flag(_), [0]) => String::new(),
            (Keeping::Visibility, [1]) => "pub ".to_string(),
            (Keeping::Flag(word), [1]) => format!("{word} "),
            (Keeping::Truth, [1]) => "true".to_string(),
            (Keeping::Truth, [0]) => "false".to_string(),
            (Keeping::Unless, _) => format!("{bytes} "),
            (Keeping::Visibility, _) => format!("vis {bytes} "),
            (Keeping::Flag(word), _) => format!("{word} {bytes} "),
            (Keeping::Truth, _) => format!("bool {bytes}"),
            (Keeping::Attributes, _) => return self.own_line(node, format!("attr {bytes}")),
        };
        self.put(&spelled);
    }

    /// A field ahead of its declaration on the line, and the declaration on the next.
    fn own_line(&mut self, node: &Node, text: String) {
        let Some(line) = self.lines.last_mut() else { return };
        let declaration = line.at.replace(node.at);
        self.put(&text);
        self.new_line(declaration);
    }

    /// What a synonym displays, where it is a short name.
    fn display<'n, 'c>(&self, node: &'n Node<'c>) -> Option<&'n Node<'c>> {
        match (node.kind, self.look.tints.get(&node.at)) {
            (kinds::SYNONYM, Some(Tint::Short(_))) => node.kids.first(),
            _ => None,
        }
    }

    fn wants_parentheses(&self, node: &Node, place: Place) -> bool {
        let node = self.display(node).unwrap_or(node);
        match place {
            _ if node.kind == kinds::SEQUENCE => place != Place::Braces,
            Place::Braces | Place::Free => false,
            Place::Head => end(node) == End::Loose,
            // `::a::X` with `::f` behind it would be a longer path.
            Place::Before("::") if node.kind == kinds::EXPR_FROM_PATH => true,
            Place::Before(_) => end(node) != End::Closed,
        }
    }
}

/// What a record's text ends with.
#[derive(PartialEq)]
enum End {
    /// What follows can't become a part of it.
    Closed,
    /// An expression or a type, of which what follows may become a part.
    Open,
    /// The same, or something optional that is left out.
    Loose,
}

fn end(node: &Node) -> End {
    let Some(rule) = rule(node.kind) else { return End::Closed };
    let (last, list) = match rule.pieces.last() {
        Some(Piece::Field(n)) => (*n, false),
        Some(Piece::Maybe(n, inner)) => match (node.kids.get(*n), inner.last()) {
            (Some(list), _) if list.kids.is_empty() => return End::Loose,
            (_, Some(Piece::Field(n))) => (*n, true),
            _ => return End::Closed,
        },
        _ => return End::Closed,
    };
    let kid = node.kids.get(last).and_then(|kid| if list { kid.kids.first() } else { Some(kid) });
    match (rule.kind.fields[last].what, kid) {
        (What::Of(kinds::EXPR), Some(kid)) if kid.kind == kinds::SEQUENCE => End::Open,
        (What::Of(kinds::EXPR), Some(kid)) if end(kid) == End::Loose => End::Loose,
        (What::Of(kinds::EXPR), _) => End::Open,
        (What::Of(kinds::TYPE), _) if kinds::EXPR.has(node.kind) => End::Loose,
        (What::Of(kinds::TYPE), _) => End::Open,
        _ => End::Closed,
    }
}

/// What stands behind a piece, of which the others are these.
fn behind(pieces: &[Piece], then: &'static str) -> &'static str {
    match pieces {
        [Piece::Words(words), rest @ ..] if words.trim_start().is_empty() => behind(rest, then),
        [Piece::Words(words), ..] => words.trim_start(),
        [_, ..] => "..",
        [] => then,
    }
}

/// What stands around a piece, of which those before it are these.
fn place(rule: &Rule, pieces: &[Piece], behind: &'static str) -> Place {
    if pieces.is_empty() && rule.goes_on() {
        return Place::Before(behind);
    }
    if kinds::opens_braces(pieces) || (rule.kind.number == kinds::SEQUENCE && !pieces.is_empty()) {
        return Place::Braces;
    }
    let ended = behind.is_empty() || behind.starts_with([')', ']', '}', ',', ';']);
    if kinds::EXPR.has(rule.kind.number) && !ended {
        return Place::Head;
    }
    Place::Free
}
