//! A card from its text: reads along the patterns of the kinds.

use crate::kinds::{self, Apart, Class, Field, Keeping, Piece, Rule, Shape, Spelling, What};
use crate::records::{self, Node, MOST_DEPTH};
use crate::spell;
use vegashol::{Reason, Refusal};

/// A longer text is refused unread. That of a card is never so long.
pub const MOST_TEXT: usize = 1 << 20;

/// What is wrong with a text, and where. Lines and columns count from 1.
#[derive(Clone, Debug, PartialEq, Eq)]
pub struct Fault {
    pub line: usize,
    pub column: usize,
    pub what: String,
}

/// The bytes of the card that the text spells; it is a sound one.
pub fn make(text: &[u8]) -> Result<Vec<u8>, Fault> {
    let tree = Parser::new(text).whole().map_err(|wrong| fault(text, wrong))?;
    let (mut card, mut starts) = (Vec::new(), Vec::new());
    tree.write(&mut card, &mut starts);
    let Some(refusal) = records::read(&card).refusal else { return Ok(card) };
    // A card that is too long is so from the record on that takes it there.
    let place = if refusal.reason == Reason::LongCard { vegashol::MOST_CARD } else { refusal.place };
    let at = starts.iter().rev().find(|(start, _)| *start <= place).map_or(0, |(_, at)| *at);
    Err(fault(text, Wrong { at, what: unsound(refusal) }))
}

/// A path's record, spelled as Rust writes it, with nothing behind it: `crate//a` is not `crate` with a comment.
pub fn path(text: &[u8]) -> Result<Vec<u8>, Fault> {
    let mut parser = Parser::new(text);
    let path = parser.path().map_err(|wrong| fault(text, wrong))?;
    if parser.at < text.len() {
        return parser.wrong("the path ends before the text does").map_err(|wrong| fault(text, wrong));
    }
    Ok(path.to_bytes())
}

/// Without the place, which is one of a card that is not made.
fn unsound(refusal: Refusal) -> String {
    format!("refused, {} ({}): {}", refusal.word(), refusal.number(), refusal.reason.words())
}

fn fault(text: &[u8], wrong: Wrong) -> Fault {
    let before = &text[..wrong.at.min(text.len())];
    let line_start = before.iter().rposition(|byte| *byte == b'\n').map_or(0, |at| at + 1);
    let line = 1 + before.iter().filter(|byte| **byte == b'\n').count();
    Fault { line, column: 1 + before.len() - line_start, what: wrong.what }
}

/// At a byte of the text.
struct Wrong {
    at: usize,
    what: String,
}

type Made = Result<Node<'static>, Wrong>;

/// A sound card's text never has so many parentheses and records in each other. What is less deep is left to the reader, which
/// knows the record that is too deep.
const MOST_NESTED: usize = 2 * MOST_DEPTH + 4;

/// A field that stands ahead of the word that tells what it is a field of.
struct Lead {
    at: usize,
    word: &'static str,
    what: What,
    node: Node<'static>,
}

struct Parser<'t> {
    text: &'t [u8],
    at: usize,
    nested: usize,
    leads: Vec<Lead>,
}

impl<'t> Parser<'t> {
    fn new(text: &'t [u8]) -> Parser<'t> {
        Parser { text, at: 0, nested: 0, leads: Vec::new() }
    }

    fn whole(&mut self) -> Made {
        let tree = self.of(kinds::MODULE)?;
        self.blanks();
        if self.at < self.text.len() {
            return self.wrong("the end of the text is due here");
        }
        Ok(tree)
    }

    fn wrong<T>(&self, what: impl Into<String>) -> Result<T, Wrong> {
        Err(Wrong { at: self.at, what: what.into() })
    }

    /// What is due here, and what is here instead.
    fn due<T>(&mut self, due: &str) -> Result<T, Wrong> {
        self.blanks();
        let rest = self.rest();
        let word = rest.iter().take_while(|byte| spell::in_name(**byte)).count().clamp(1, 40);
        match rest.get(..word) {
            None => self.wrong(format!("{due} is due here, and the text ends")),
            Some(here) => self.wrong(format!("{due} is due here, and not `{}`", spell::escaped(here))),
        }
    }

    fn rest(&self) -> &'t [u8] {
        &self.text[self.at..]
    }

    /// Goes past blanks and comments.
    fn blanks(&mut self) {
        loop {
            let rest = self.rest();
            let blanks = rest.iter().take_while(|byte| matches!(byte, b' ' | b'\t' | b'\r' | b'\n')).count();
            self.at += blanks;
            if !self.rest().starts_with(b"//") {
                return;
            }
            self.at += self.rest().iter().take_while(|byte| **byte != b'\n').count();
        }
    }

    /// Whether the token is the next one.
    fn sees(&mut self, token: &str) -> bool {
        self.blanks();
        let Some(behind) = self.rest().strip_prefix(token.as_bytes()) else { return false };
        match (token.as_bytes().last(), behind.first()) {
            // `..` is an operator.
            (Some(b'.'), Some(b'.')) => false,
            (Some(last), Some(next)) if spell::in_name(*last) => {
                !spell::in_name(*next) && !spell::has_mark(behind)
            }
            _ => true,
        }
    }

    fn takes(&mut self, token: &str) -> bool {
        let seen = self.sees(token);
        if seen {
            self.at += token.len();
        }
        seen
    }

    fn words(&mut self, words: &str) -> Result<(), Wrong> {
        for token in words.split_whitespace() {
            if let Some(lead) = self.leads.first() {
                let what = format!("`{}` may not stand ahead of `{token}`", lead.word);
                return Err(Wrong { at: lead.at, what });
            }
            if !self.takes(token) {
                return self.due(&format!("`{token}`"));
            }
        }
        Ok(())
    }

    fn branch(&self, at: usize, kind: u16, kids: Vec<Node<'static>>) -> Made {
        let node = Node::branch(at, kind, kids);
        if node.height > 2 * MOST_NESTED {
            let refusal = Refusal { reason: Reason::TooDeep, place: 0 };
            return Err(Wrong { at, what: unsound(refusal) });
        }
        Ok(node)
    }

    fn of(&mut self, class: Class) -> Made {
        self.nested += 1;
        if self.nested > MOST_NESTED {
            return self.wrong(format!("this is nested more than {MOST_NESTED} deep"));
        }
        let made = self.record(class)?;
        self.nested -= 1;
        Ok(made)
    }

    /// The first of some statements, and the others.
    fn statements(&mut self, first: Node<'static>) -> Made {
        let mut last = first;
        let mut before = Vec::new();
        while self.takes(";") {
            before.push(std::mem::replace(&mut last, self.of(kinds::EXPR)?));
        }
        let sequence = |rhs, stmt: Node<'static>| self.branch(stmt.at, kinds::SEQUENCE, vec![stmt, rhs]);
        before.into_iter().rev().try_fold(last, sequence)
    }

    fn record(&mut self, class: Class) -> Made {
        self.blanks();
        let at = self.at;
        if class == kinds::PATH {
            return self.path();
        }
        if (class == kinds::TYPE || class == kinds::EXPR) && self.takes("(") {
            let made = self.parentheses(at, class)?;
            return self.going_on(class, made);
        }
        if class == kinds::MODULE || class == kinds::DECLARATION || class == kinds::MEMBER_OF_IMPL {
            self.leading()?;
        }
        let rules = self.candidates(class);
        if rules.is_empty() {
            return self.due(class.words());
        }
        let made = self.along(at, rules, Vec::new())?;
        if made.kind == kinds::EXPR_FROM_PATH {
            self.ends_path()?;
        }
        self.going_on(class, made)
    }

    /// Behind a path that is an expression. `::a ::b` would select a function from `::a`, and read like a path.
    fn ends_path(&mut self) -> Result<(), Wrong> {
        let end = self.at;
        if self.sees("::") && !self.sees("::<") && self.at > end {
            return self
                .wrong("no blank may stand in a path, and a function is selected as in `(::a::X)::f`");
        }
        Ok(())
    }

    /// The rules whose patterns start as the text does here. Several have the first pieces in common.
    fn candidates(&mut self, class: Class) -> Vec<&'static Rule> {
        if class.first == class.last {
            return class.rules().collect();
        }
        let mut longest = 0;
        let mut rules = Vec::new();
        for rule in class.rules().filter(|rule| !rule.goes_on() && rule.kind.number != kinds::SEQUENCE) {
            if !self.starts(rule, &rule.pieces) {
                continue;
            }
            let length = match rule.pieces.first() {
                Some(Piece::Words(words)) => words.split_whitespace().next().map_or(0, str::len),
                _ => 0,
            };
            if length > longest {
                rules.clear();
                longest = length;
            }
            if length == longest {
                rules.push(rule);
            }
        }
        rules
    }

    /// Whether the pieces may start here.
    fn starts(&mut self, rule: &'static Rule, pieces: &'static [Piece]) -> bool {
        match pieces {
            [] => true,
            [Piece::Words(words), rest @ ..] => match words.split_whitespace().next() {
                Some(token) => self.sees(token),
                None => self.starts(rule, rest),
            },
            [Piece::Maybe(_, inner), rest @ ..] => self.starts(rule, inner) || self.starts(rule, rest),
            [Piece::Field(n), rest @ ..] => {
                let field = &rule.kind.fields[*n];
                match field.what {
                    What::Text(Spelling::Doc) => self.sees("doc") || self.starts(rule, rest),
                    What::Kept(Keeping::Attributes) => self.sees("attr") || self.starts(rule, rest),
                    What::Kept(Keeping::Visibility) => {
                        self.sees("pub") || self.sees("vis") || self.starts(rule, rest)
                    }
                    _ if matches!(field.shape, Shape::Seq(Apart::Lines | Apart::CommaLines)) => {
                        self.sees("{")
                    }
                    What::Text(spelling) => self.starts_text(spelling),
                    What::Kept(Keeping::Truth) => {
                        self.sees("true") || self.sees("false") || self.sees("bool")
                    }
                    What::Kept(Keeping::Shown) => self.sees("#"),
                    What::Kept(_) => self.starts(rule, rest),
                    What::Of(class) => self.starts_class(class),
                }
            }
        }
    }

    fn starts_class(&mut self, class: Class) -> bool {
        match class {
            kinds::PATH => self.sees("::") || self.sees("crate") || self.sees("Self"),
            kinds::TYPE | kinds::EXPR if self.sees("(") => true,
            // The one kind's pattern tells, since `candidates` does not ask it.
            _ if class.first == class.last => class.rules().any(|rule| self.starts(rule, &rule.pieces)),
            _ => !self.candidates(class).is_empty(),
        }
    }

    fn starts_text(&mut self, spelling: Spelling) -> bool {
        self.blanks();
        let rest = self.rest();
        let in_quotes = rest.first() == Some(&b'"');
        match spelling {
            Spelling::Name => in_quotes || spell::bare_name(rest) > 0,
            Spelling::Quoted => in_quotes,
            Spelling::Size => in_quotes || spell::bare_name(rest) + spell::bare_number(rest) > 0,
            Spelling::Number => spell::bare_number(rest) > 0 || self.sees("literal"),
            Spelling::Unary => self.sees("op") || spell::UNARY.iter().any(|operator| self.sees(operator)),
            Spelling::Binary => self.sees("op") || spell::BINARY.iter().any(|operator| self.sees(operator)),
            Spelling::Doc => self.sees("doc"),
        }
    }

    /// Behind an opening parenthesis: a tuple, a pattern that starts with one, or one record that stands in them.
    fn parentheses(&mut self, at: usize, class: Class) -> Made {
        let tuple = if class == kinds::TYPE { kinds::TUPLE_TYPE } else { kinds::TUPLE };
        if self.takes(")") {
            let none = self.branch(at, kinds::LIST, Vec::new())?;
            return self.branch(at, tuple, vec![none]);
        }
        let first = self.of(class)?;
        if class == kinds::EXPR && self.sees(";") {
            let made = self.statements(first)?;
            self.words(")")?;
            return Ok(made);
        }
        if self.takes(")") {
            return Ok(first);
        }
        if self.takes(",") {
            let mut items = vec![first];
            while !self.sees(")") {
                items.push(self.of(class)?);
                if !self.takes(",") {
                    break;
                }
            }
            self.words(")")?;
            let list = self.branch(at, kinds::LIST, items)?;
            return self.branch(at, tuple, vec![list]);
        }
        let rules: Vec<&Rule> = class
            .rules()
            .filter(|rule| matches!(rule.pieces[..], [Piece::Words("("), Piece::Field(_), _, ..]))
            .filter(|rule| rule.kind.number != tuple && self.starts(rule, &rule.pieces[2..]))
            .collect();
        if rules.is_empty() {
            return self.due("`)`");
        }
        self.along(at, rules, vec![None, Some(first)])
    }

    /// What goes on from a record: calls, selections and the like.
    fn going_on(&mut self, class: Class, mut made: Node<'static>) -> Made {
        loop {
            let rules = class.rules().filter(|rule| rule.goes_on());
            let seen = rules.filter_map(|rule| match &rule.pieces[1] {
                Piece::Words(words) if self.sees(words) => Some((words.len(), rule)),
                _ => None,
            });
            match seen.max_by_key(|(length, _)| *length) {
                None => return Ok(made),
                Some((_, rule)) => made = self.along(made.at, vec![rule], vec![Some(made)])?,
            }
        }
    }

    /// Reads along the patterns of the rules, which tell apart as they go on. `made` is what has been read of the first pieces.
    fn along(
        &mut self,
        at: usize,
        mut rules: Vec<&'static Rule>,
        mut made: Vec<Option<Node<'static>>>,
    ) -> Made {
        loop {
            let i = made.len();
            let first = rules[0];
            if rules.iter().any(|rule| rule.pieces.get(i) != first.pieces.get(i)) {
                let next: Vec<&str> = rules.iter().map(|rule| token(&rule.pieces[i..])).collect();
                rules.retain(|rule| self.starts(rule, &rule.pieces[i..]));
                rules.truncate(1);
                if rules.is_empty() {
                    return self.due(&format!("`{}`", next.join("` or `")));
                }
                continue;
            }
            match first.pieces.get(i) {
                None => return self.filled(at, first, made),
                Some(Piece::Words(words)) => {
                    self.words(words)?;
                    made.push(None);
                }
                Some(Piece::Field(n)) => {
                    let statements = kinds::opens_braces(&first.pieces[..i]);
                    made.push(Some(self.field(&first.kind.fields[*n], statements)?));
                }
                Some(Piece::Maybe(n, inner)) if self.starts(first, inner) => {
                    let mut field = None;
                    for (j, piece) in inner.iter().enumerate() {
                        match piece {
                            Piece::Words(words) => self.words(words)?,
                            _ => {
                                field = Some(
                                    self.field(&first.kind.fields[*n], kinds::opens_braces(&inner[..j]))?,
                                )
                            }
                        }
                    }
                    made.push(field);
                }
                Some(Piece::Maybe(..)) => made.push(None),
            }
        }
    }

    /// The record, its fields in their order.
    fn filled(&self, at: usize, rule: &Rule, made: Vec<Option<Node<'static>>>) -> Made {
        let mut kids: Vec<Node> =
            rule.kind.fields.iter().map(|_| Node::branch(at, kinds::LIST, Vec::new())).collect();
        for (piece, node) in rule.pieces.iter().zip(made) {
            if let (Piece::Field(n) | Piece::Maybe(n, _), Some(node)) = (piece, node) {
                kids[*n] = node;
            }
        }
        self.branch(at, rule.kind.number, kids)
    }

    fn field(&mut self, field: &'static Field, statements: bool) -> Made {
        self.blanks();
        let at = self.at;
        match field.shape {
            Shape::One => self.one(field.what, statements),
            Shape::Option => {
                let one = self.one(field.what, statements)?;
                self.branch(at, kinds::LIST, vec![one])
            }
            Shape::Seq(apart) => {
                let items = self.items(field.what, apart)?;
                self.branch(at, kinds::LIST, items)
            }
        }
    }

    fn items(&mut self, what: What, apart: Apart) -> Result<Vec<Node<'static>>, Wrong> {
        let mut items = Vec::new();
        let separator = if apart == Apart::Pluses { "+" } else { "," };
        if matches!(apart, Apart::Lines | Apart::CommaLines) {
            self.words("{")?;
            while !self.takes("}") {
                items.push(self.one(what, false)?);
                if apart == Apart::CommaLines && !self.sees("}") {
                    self.words(separator)?;
                }
            }
            return Ok(items);
        }
        let class = what.class();
        while self.starts_class(class) {
            items.push(self.one(what, false)?);
            if !self.takes(separator) {
                break;
            }
        }
        Ok(items)
    }

    fn one(&mut self, what: What, statements: bool) -> Made {
        if let Some(i) = self.leads.iter().position(|lead| lead.what == what) {
            return Ok(self.leads.remove(i).node);
        }
        match what {
            What::Text(spelling) => self.text(spelling),
            What::Kept(keeping) => self.kept(keeping),
            What::Of(class) => {
                let made = self.of(class)?;
                if statements {
                    self.statements(made)
                } else {
                    Ok(made)
                }
            }
        }
    }

    /// The fields that may stand ahead of a declaration's word, for whichever kind has them.
    fn leading(&mut self) -> Result<(), Wrong> {
        const DOC: &str = "doc";
        const KEPT: [(&str, Keeping); 3] =
            [("attr", Keeping::Attributes), ("pub", Keeping::Visibility), ("vis", Keeping::Visibility)];
        if self.sees(DOC) {
            let (at, node) = (self.at, self.text(Spelling::Doc)?);
            self.leads.push(Lead { at, word: DOC, what: What::Text(Spelling::Doc), node });
        }
        for (word, keeping) in KEPT {
            if self.sees(word) {
                let (at, node) = (self.at, self.kept(keeping)?);
                self.leads.push(Lead { at, word, what: What::Kept(keeping), node });
            }
        }
        let mut words = [DOC].into_iter().chain(KEPT.map(|(word, _)| word));
        match words.find(|word| self.sees(word)) {
            Some(word) => {
                self.wrong(format!("`{word}` may not stand here: first comes `doc`, then `attr`, then `pub`"))
            }
            None => Ok(()),
        }
    }

    fn path(&mut self) -> Made {
        let at = self.at;
        let global = self.sees("::");
        let mut path = if global {
            Node::branch(at, kinds::GLOBAL, Vec::new())
        } else if self.takes("crate") {
            Node::branch(at, kinds::CRATE, Vec::new())
        } else if self.takes("Self") {
            Node::branch(at, kinds::SELF, Vec::new())
        } else {
            return self.due("a path (`::..`, `crate` or `Self`)");
        };
        // No blank stands in a path.
        while let Some(rest) = self.rest().strip_prefix(b"::") {
            if rest.first() != Some(&b'"') && spell::bare_name(rest) == 0 {
                break;
            }
            self.at += 2;
            let name = self.text(Spelling::Name)?;
            path = self.branch(at, kinds::MEMBER, vec![path, name])?;
        }
        if global && path.kind == kinds::GLOBAL {
            self.at += 2;
        }
        Ok(path)
    }

    fn text(&mut self, spelling: Spelling) -> Made {
        self.blanks();
        let at = self.at;
        let rest = self.rest();
        let bare = match spelling {
            Spelling::Name => spell::bare_name(rest),
            Spelling::Number => spell::bare_number(rest),
            Spelling::Size => spell::bare_number(rest).max(spell::bare_name(rest)),
            Spelling::Unary => self.operator(spell::UNARY),
            Spelling::Binary => self.operator(spell::BINARY),
            Spelling::Quoted | Spelling::Doc => 0,
        };
        if bare > 0 {
            self.at += bare;
            return Ok(Node::leaf(at, kinds::TEXT, rest[..bare].to_vec()));
        }
        let (word, words) = match spelling {
            Spelling::Name | Spelling::Size => ("", "a name"),
            Spelling::Quoted => ("", "a text in quotes"),
            Spelling::Number => ("literal", "a number"),
            Spelling::Unary | Spelling::Binary => ("op", "an operator"),
            Spelling::Doc if !self.sees("doc") => return Ok(Node::leaf(at, kinds::TEXT, &[])),
            Spelling::Doc => ("doc", "`doc`"),
        };
        if !word.is_empty() && !self.takes(word) {
            return self.due(words);
        }
        self.blanks();
        if self.rest().first() != Some(&b'"') {
            let here = self.rest().iter().take_while(|byte| spell::in_name(**byte)).count();
            let here = &self.rest()[..here];
            if words == "a name" && spell::is_word(here) {
                let here = spell::escaped(here);
                return self.wrong(format!("`{here}` is a word of the notation; as a name it is \"{here}\""));
            }
            return self.due(if word.is_empty() { words } else { "a text in quotes" });
        }
        let bytes = self.quoted()?;
        Ok(Node::leaf(at, kinds::TEXT, bytes))
    }

    fn operator(&mut self, bare: &[&str]) -> usize {
        bare.iter().find(|operator| self.sees(operator)).map_or(0, |operator| operator.len())
    }

    fn quoted(&mut self) -> Result<Vec<u8>, Wrong> {
        let start = self.at;
        self.at += 1;
        let mut bytes = Vec::new();
        loop {
            match self.rest() {
                [b'"', ..] => {
                    self.at += 1;
                    return Ok(bytes);
                }
                [b'\\', escape @ (b'"' | b'\\'), ..] => {
                    bytes.push(*escape);
                    self.at += 2;
                }
                [b'\\', b'x', high, low, ..] if high.is_ascii_hexdigit() && low.is_ascii_hexdigit() => {
                    bytes.push(16 * digit(*high) + digit(*low));
                    self.at += 4;
                }
                [b'\\', ..] => {
                    return self.wrong("behind `\\` is due `\"`, `\\` or `x` and two hexadecimal digits")
                }
                [byte @ b' '..=b'~', ..] => {
                    bytes.push(*byte);
                    self.at += 1;
                }
                [] | [b'\n' | b'\r', ..] => {
                    self.at = start;
                    return self.wrong("this text has no closing quote on its line");
                }
                [byte, ..] => {
                    return self.wrong(format!("this byte is not printable ASCII: write `\\x{byte:02X}`"));
                }
            }
        }
    }

    fn kept(&mut self, keeping: Keeping) -> Made {
        self.blanks();
        let at = self.at;
        let fixed = |bytes: &'static [u8]| Ok(Node::leaf(at, kinds::KEPT, bytes));
        match keeping {
            Keeping::Shown => {}
            Keeping::Unless if self.sees("#") => {}
            Keeping::Attributes if self.takes("attr") => {}
            Keeping::Unless | Keeping::Attributes => return fixed(&[]),
            Keeping::Visibility if self.takes("pub") => return fixed(&[1]),
            Keeping::Visibility if self.takes("vis") => {}
            Keeping::Flag(word) if self.takes(word) => {
                if !self.sees("#") {
                    return fixed(&[1]);
                }
            }
            Keeping::Visibility | Keeping::Flag(_) => return fixed(&[0]),
            Keeping::Truth if self.takes("true") => return fixed(&[1]),
            Keeping::Truth if self.takes("false") => return fixed(&[0]),
            Keeping::Truth => self.words("bool")?,
        }
        if !self.takes("#") {
            return self.due("`#` with kept bytes");
        }
        if self.rest().first() == Some(&b'"') {
            let bytes = self.quoted()?;
            return Ok(Node::leaf(at, kinds::KEPT, bytes));
        }
        let digits = self.rest().iter().take_while(|byte| byte.is_ascii_hexdigit()).count();
        if digits == 0 || digits % 2 == 1 {
            return self.wrong("behind `#` are due pairs of hexadecimal digits, or a text in quotes");
        }
        let bytes: Vec<u8> =
            self.rest()[..digits].chunks_exact(2).map(|pair| 16 * digit(pair[0]) + digit(pair[1])).collect();
        self.at += digits;
        Ok(Node::leaf(at, kinds::KEPT, bytes))
    }
}

/// The token that the pieces start with.
fn token(pieces: &[Piece]) -> &'static str {
    match pieces {
        [Piece::Words(words), rest @ ..] => words.split_whitespace().next().unwrap_or_else(|| token(rest)),
        _ => "{",
    }
}

/// Of a hexadecimal digit.
fn digit(byte: u8) -> u8 {
    match byte {
        b'0'..=b'9' => byte - b'0',
        b'a'..=b'f' => byte - b'a' + 10,
        _ => byte - b'A' + 10,
    }
}
