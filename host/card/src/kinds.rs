//! The kinds of records: their numbers, names and fields (`docs/FORMAT.md`), and how each is written.
//!
//! A pattern says how a record is written. `$n` is its field n, `?n(..)` stands only where the Option or the List of field n
//! holds something, and all else is written as it is. Showing fills patterns in, making reads along them.

use std::sync::LazyLock;

pub const TEXT: u16 = 0x01;
pub const LIST: u16 = 0x02;
pub const KEPT: u16 = 0x03;
pub const GLOBAL: u16 = 0x10;
pub const CRATE: u16 = 0x11;
pub const SELF: u16 = 0x12;
pub const MEMBER: u16 = 0x13;
pub const TUPLE_TYPE: u16 = 0x33;
pub const SYNONYM: u16 = 0x37;
pub const SEQUENCE: u16 = 0x44;
pub const TUPLE: u16 = 0x47;
pub const EXPR_FROM_PATH: u16 = 0x5C;

/// Kinds that may stand at the same place, from the first to the last number.
#[derive(Clone, Copy, Debug, PartialEq, Eq)]
pub struct Class {
    pub first: u16,
    pub last: u16,
}

impl Class {
    pub fn has(self, kind: u16) -> bool {
        (self.first..=self.last).contains(&kind)
    }

    pub fn rules(self) -> impl Iterator<Item = &'static Rule> {
        (self.first..=self.last).filter_map(rule)
    }

    /// What a message calls a record of the class.
    pub fn words(self) -> &'static str {
        match self {
            PATH => "a path",
            TYPE => "a type",
            EXPR => "an expression",
            MODULE => "a module, `mod` or `extern mod`,",
            DECLARATION => "a declaration",
            MEMBER_OF_IMPL => "a member (`fn`, `type`, `macro` or `raw`)",
            FIELDS => "`{` or `(` with fields",
            _ => rule(self.first).map_or("a record", |rule| rule.kind.name),
        }
    }
}

const fn range(first: u16, last: u16) -> Class {
    Class { first, last }
}

const fn only(kind: u16) -> Class {
    range(kind, kind)
}

pub const PATH: Class = range(0x10, 0x13);
pub const TYPE: Class = range(0x20, 0x38);
pub const EXPR: Class = range(0x40, 0x5E);
pub const MODULE: Class = range(0x60, 0x61);
pub const DECLARATION: Class = range(0x62, 0x6A);
pub const FIELDS: Class = range(0x75, 0x76);
pub const MEMBER_OF_IMPL: Class = range(0x83, 0x86);

/// How a Text is written.
#[derive(Clone, Copy, Debug, PartialEq, Eq)]
pub enum Spelling {
    /// Bare where it is a plain name, else in quotes.
    Name,
    /// In quotes.
    Quoted,
    /// In quotes behind `doc`, on a line of its own; nothing where it is empty.
    Doc,
    /// Bare where it is an operator before its operand, else in quotes behind `op`.
    Unary,
    /// Bare where it is an operator between operands, else in quotes behind `op`.
    Binary,
    /// Bare where it starts with a digit and is plain, else in quotes behind `literal`.
    Number,
    /// Bare where it is a plain number or name, else in quotes.
    Size,
}

/// How a Kept is written.
#[derive(Clone, Copy, Debug, PartialEq, Eq)]
pub enum Keeping {
    /// Its bytes.
    Shown,
    /// Nothing where it is empty, else its bytes.
    Unless,
    /// Behind `attr`, on a line of its own; nothing where it is empty.
    Attributes,
    /// 01 is `pub`, 00 nothing, else its bytes behind `vis`.
    Visibility,
    /// 01 is the word, 00 nothing, else its bytes behind the word.
    Flag(&'static str),
    /// 01 is `true`, 00 `false`, else its bytes behind `bool`.
    Truth,
}

#[derive(Clone, Copy, Debug, PartialEq, Eq)]
pub enum What {
    Text(Spelling),
    Kept(Keeping),
    Of(Class),
}

impl What {
    /// The kinds that may stand here.
    pub fn class(self) -> Class {
        match self {
            What::Text(_) => only(TEXT),
            What::Kept(_) => only(KEPT),
            What::Of(class) => class,
        }
    }
}

/// How the records of a List are kept apart.
#[derive(Clone, Copy, Debug, PartialEq, Eq)]
pub enum Apart {
    Commas,
    /// Commas, with one behind a single record too.
    Tuple,
    Pluses,
    /// On lines of their own in braces.
    Lines,
    /// The same, each with a comma behind it.
    CommaLines,
}

#[derive(Clone, Copy, Debug, PartialEq, Eq)]
pub enum Shape {
    One,
    Option,
    Seq(Apart),
}

#[derive(Debug)]
pub struct Field {
    pub name: &'static str,
    pub shape: Shape,
    pub what: What,
}

#[derive(Debug)]
pub struct Kind {
    pub number: u16,
    pub name: &'static str,
    pub fields: &'static [Field],
    pattern: &'static str,
}

/// A part of a pattern.
#[derive(Debug, PartialEq, Eq)]
pub enum Piece {
    Words(&'static str),
    Field(usize),
    Maybe(usize, Vec<Piece>),
}

/// A kind with its pattern in pieces.
#[derive(Debug)]
pub struct Rule {
    pub kind: &'static Kind,
    pub pieces: Vec<Piece>,
}

impl Rule {
    /// Whether the pattern starts with a record of the kind's own class, as that of a call does.
    pub fn goes_on(&self) -> bool {
        match self.pieces.first() {
            Some(Piece::Field(first)) => match self.kind.fields[*first].what {
                What::Of(class) => class.has(self.kind.number) && self.kind.number != SEQUENCE,
                _ => false,
            },
            _ => false,
        }
    }
}

/// Whether what follows the pieces stands in braces, where statements may stand.
pub fn opens_braces(pieces: &[Piece]) -> bool {
    matches!(pieces.last(), Some(Piece::Words(words)) if words.ends_with("{ "))
}

fn pieces(pattern: &'static str) -> Vec<Piece> {
    let digit = |at: usize| (pattern.as_bytes()[at] - b'0') as usize;
    let mut pieces = Vec::new();
    let mut rest = pattern;
    while !rest.is_empty() {
        let at = pattern.len() - rest.len();
        match rest.as_bytes()[0] {
            b'$' => {
                pieces.push(Piece::Field(digit(at + 1)));
                rest = &rest[2..];
            }
            b'?' => {
                let end = rest.find(')').unwrap_or(rest.len());
                pieces.push(Piece::Maybe(digit(at + 1), self::pieces(&rest[3..end])));
                rest = &rest[end + 1..];
            }
            _ => {
                let end = rest.find(['$', '?']).unwrap_or(rest.len());
                pieces.push(Piece::Words(&rest[..end]));
                rest = &rest[end..];
            }
        }
    }
    pieces
}

static RULES: LazyLock<Vec<Option<Rule>>> = LazyLock::new(|| {
    let mut rules: Vec<Option<Rule>> = Vec::new();
    for kind in KINDS {
        rules.resize_with(kind.number as usize, || None);
        rules.push(Some(Rule { kind, pieces: pieces(kind.pattern) }));
    }
    rules
});

/// None for Text, List and Kept, and for a number that has no row.
pub fn rule(kind: u16) -> Option<&'static Rule> {
    RULES.get(kind as usize)?.as_ref()
}

/// Words of the notation, which no bare name is.
pub static WORDS: LazyLock<Vec<&'static str>> = LazyLock::new(|| {
    fn of(pieces: &'static [Piece]) -> Vec<&'static str> {
        let words = |piece: &'static Piece| match piece {
            Piece::Words(words) => vec![*words],
            Piece::Field(_) => Vec::new(),
            Piece::Maybe(_, inner) => of(inner),
        };
        pieces.iter().flat_map(words).collect()
    }
    let patterns = RULES.iter().flatten().flat_map(|rule| of(&rule.pieces));
    let others = ["op literal attr doc vis pub bool true false binary verbatim crate Self mut"];
    let mut words: Vec<&str> = patterns
        .chain(others)
        .flat_map(|words| words.split(|c: char| !c.is_ascii_alphanumeric()))
        .filter(|word| !word.is_empty())
        .collect();
    words.sort_unstable();
    words.dedup();
    words
});

const fn one(what: What) -> (Shape, What) {
    (Shape::One, what)
}

const fn text(spelling: Spelling) -> (Shape, What) {
    one(What::Text(spelling))
}

const fn kept(keeping: Keeping) -> (Shape, What) {
    one(What::Kept(keeping))
}

const fn of(class: Class) -> (Shape, What) {
    one(What::Of(class))
}

const fn option(of: (Shape, What)) -> (Shape, What) {
    (Shape::Option, of.1)
}

const fn seq(of: (Shape, What), apart: Apart) -> (Shape, What) {
    (Shape::Seq(apart), of.1)
}

const NAME: (Shape, What) = text(Spelling::Name);
const QUOTED: (Shape, What) = text(Spelling::Quoted);
const DOC: (Shape, What) = text(Spelling::Doc);
const ATTRIBUTES: (Shape, What) = kept(Keeping::Attributes);
const VISIBILITY: (Shape, What) = kept(Keeping::Visibility);
const UNLESS: (Shape, What) = kept(Keeping::Unless);
const SHOWN: (Shape, What) = kept(Keeping::Shown);
const A_PATH: (Shape, What) = of(PATH);
const A_TYPE: (Shape, What) = of(TYPE);
const AN_EXPR: (Shape, What) = of(EXPR);
const TYPES: (Shape, What) = seq(A_TYPE, Apart::Commas);
const BOUNDS: (Shape, What) = seq(A_TYPE, Apart::Pluses);
const FORMALS: (Shape, What) = seq(of(only(0x7E)), Apart::Commas);
const PARAMS: (Shape, What) = seq(of(only(0x7F)), Apart::Commas);
const MEMBERS: (Shape, What) = seq(of(MEMBER_OF_IMPL), Apart::Lines);

macro_rules! kinds {
    ($($number:literal $name:literal $pattern:literal { $($field:literal: $what:expr),* })*) => {
        /// By their numbers, rising.
        pub static KINDS: &[Kind] = &[$(Kind {
            number: $number,
            name: $name,
            fields: &[$(Field { name: $field, shape: $what.0, what: $what.1 }),*],
            pattern: $pattern,
        }),*];
    };
}

kinds! {
    0x10 "Global" "::" {}
    0x11 "Crate" "crate" {}
    0x12 "Self" "Self" {}
    0x13 "PMemberSelect" "$0::$1" { "base": A_PATH, "name": NAME }

    0x20 "U8" "u8" {}
    0x21 "U16" "u16" {}
    0x22 "U32" "u32" {}
    0x23 "U64" "u64" {}
    0x24 "U128" "u128" {}
    0x25 "I8" "i8" {}
    0x26 "I16" "i16" {}
    0x27 "I32" "i32" {}
    0x28 "I64" "i64" {}
    0x29 "I128" "i128" {}
    0x2A "USIZE" "usize" {}
    0x2B "Bool" "bool" {}
    0x2C "TIdentifier" "$0" { "name": NAME }
    0x2D "TypeFromPath" "$0" { "path": A_PATH }
    0x2E "TypeApp" "$0<$1>" { "baseName": A_TYPE, "arguments": TYPES }
    0x2F "Borrowed" "&$0" { "underlying": A_TYPE }
    0x30 "BorrowedMut" "&mut $0" { "underlying": A_TYPE }
    0x31 "ImplType" "impl $0" { "underlying": A_TYPE }
    0x32 "DynType" "dyn $0" { "underlying": A_TYPE }
    0x33 "TupleType" "($0)" { "arguments": seq(A_TYPE, Apart::Tuple) }
    0x34 "FnType" "Fn($0) -> $1" { "arguments": TYPES, "returnType": A_TYPE }
    0x35 "IntersectionType" "($0 + $1)" { "left": A_TYPE, "right": A_TYPE }
    0x36 "Array" "[$0?1(; $1)]" { "underlying": A_TYPE, "size": option(text(Spelling::Size)) }
    0x37 "TSynonym" "($0 := $1)" { "display": A_TYPE, "base": A_TYPE }
    0x38 "TMetaData" "meta($0, $1, $2)" { "display": A_TYPE, "copySemantics": SHOWN, "overflow": SHOWN }

    0x40 "RawExpr" "raw $0" { "content": QUOTED }
    0x41 "ExprFromType" "<$0>" { "tpe": A_TYPE }
    0x42 "Identifier" "$0" { "name": NAME }
    0x43 "Match" "match $0 {?1( $1 )}" { "matchee": AN_EXPR, "cases": seq(of(only(0x81)), Apart::Commas) }
    0x44 "StmtExpr" "$0; $1" { "stmt": AN_EXPR, "rhs": AN_EXPR }
    0x45 "Block" "{ $0 }" { "underlying": AN_EXPR }
    0x46 "StructBuild" "struct $0 {?1( $1 )}"
        { "underlying": AN_EXPR, "assignments": seq(of(only(0x82)), Apart::Commas) }
    0x47 "Tuple" "($0)" { "arguments": seq(AN_EXPR, Apart::Tuple) }
    0x48 "UnaryOp" "$0$2$1" { "op1": text(Spelling::Unary), "underlying": AN_EXPR, "format": UNLESS }
    0x49 "BinaryOp" "($1 $0 $3$2)"
        { "op2": text(Spelling::Binary), "left": AN_EXPR, "right": AN_EXPR, "format2": UNLESS }
    0x4A "TypeAscription" "($0 as $1)" { "left": AN_EXPR, "tpe": A_TYPE }
    0x4B "TraitCast" "<$0 as $1>" { "leftTpe": A_TYPE, "tpe": A_TYPE }
    0x4C "LiteralInt" "$0" { "value": text(Spelling::Number) }
    0x4D "LiteralBool" "$0" { "bvalue": kept(Keeping::Truth) }
    0x4E "LiteralString" "str $1$2$0"
        { "value": QUOTED, "binary": kept(Keeping::Flag("binary")), "verbatim": kept(Keeping::Flag("verbatim")) }
    0x4F "DeclareVar" "let $0$1?2(: $2)?3( = $3)"
        { "declareType": UNLESS, "name": NAME, "optType": option(A_TYPE), "optRhs": option(AN_EXPR) }
    0x50 "Assign" "set $0 = $1" { "names": SHOWN, "rhs": AN_EXPR }
    0x51 "IfExpr" "if $0 { $1 } else { $2 }" { "cond": AN_EXPR, "thn": AN_EXPR, "els": AN_EXPR }
    0x52 "Loop" "loop?0( while $0) { $1 }" { "optCond": option(AN_EXPR), "underlying": AN_EXPR }
    0x53 "For" "for $0 in $1 { $2 }" { "name": NAME, "range": AN_EXPR, "body": AN_EXPR }
    0x54 "Labelled" "'$0: $1" { "lbl": NAME, "underlying": AN_EXPR }
    0x55 "Break" "break?0( '$0)" { "optLbl": option(NAME) }
    0x56 "Continue" "continue?0( '$0)" { "optLbl": option(NAME) }
    0x57 "Return" "return?0( $0)" { "optExpr": option(AN_EXPR) }
    0x58 "CallType" "$0::<$1>" { "obj": AN_EXPR, "typeArguments": TYPES }
    0x59 "Call" "$0($1)" { "obj": AN_EXPR, "arguments": seq(AN_EXPR, Apart::Commas) }
    0x5A "Select" "$0.$1" { "obj": AN_EXPR, "name": NAME }
    0x5B "SelectIndex" "$0[$1]" { "obj": AN_EXPR, "range": AN_EXPR }
    0x5C "ExprFromPath" "$0" { "path": A_PATH }
    0x5D "FunctionSelect" "$0::$1" { "obj": AN_EXPR, "name": NAME }
    0x5E "Lambda" "|$0|?1( -> $1) { $2 }" { "params": FORMALS, "retType": option(A_TYPE), "body": AN_EXPR }

    0x60 "Mod" "$0$1mod $2 $3"
        { "docString": DOC, "attributes": ATTRIBUTES, "name": NAME, "body": seq(of(DECLARATION), Apart::Lines) }
    0x61 "ExternMod" "extern mod $0;" { "name": NAME }

    0x62 "ModDecl" "$0" { "mod": of(MODULE) }
    0x63 "StructDecl" "$0" { "struct": of(only(0x70)) }
    0x64 "TypeDecl" "$0" { "tpe": of(only(0x71)) }
    0x65 "ConstDecl" "$0" { "c": of(only(0x72)) }
    0x66 "EnumDecl" "$0" { "enum": of(only(0x73)) }
    0x67 "ImplDecl" "$0" { "impl": of(range(0x79, 0x7A)) }
    0x68 "TraitDecl" "$0" { "tr": of(only(0x7B)) }
    0x69 "TopFnDecl" "$0" { "fn": of(only(0x7C)) }
    0x6A "UseDecl" "$0" { "use": of(only(0x80)) }

    0x70 "Struct" "$0$1struct $2?3(<$3>)$4"
        { "docString": DOC, "attributes": ATTRIBUTES, "name": NAME, "typeParams": PARAMS, "fields": of(FIELDS) }
    0x71 "TypeSynonym" "$0$1type $2?3(<$3>) = $4;"
        { "docString": DOC, "attributes": ATTRIBUTES, "name": NAME, "typeParams": PARAMS, "tpe": A_TYPE }
    0x72 "Constant" "$0$1const $2: $3 = $4;"
        { "docString": DOC, "attributes": ATTRIBUTES, "name": NAME, "tpe": A_TYPE, "value": AN_EXPR }
    0x73 "Enum" "$0$1enum $2?3(<$3>) $4"
        { "docString": DOC, "attributes": ATTRIBUTES, "name": NAME, "typeParams": PARAMS,
          "variants": seq(of(only(0x74)), Apart::CommaLines) }
    0x74 "EnumCase" "$0$1$2" { "docString": DOC, "name": NAME, "fields": of(FIELDS) }
    0x75 "NamedFields" " {?0( $0 )}" { "fields": seq(of(only(0x77)), Apart::Commas) }
    0x76 "NamelessFields" "($0)" { "types": seq(of(only(0x78)), Apart::Commas) }
    0x77 "Field" "$0$1" { "visibility": VISIBILITY, "formal": of(only(0x7E)) }
    0x78 "NamelessField" "$0$1" { "visibility": VISIBILITY, "tpe": A_TYPE }
    0x79 "ImplFor" "impl?0(<$0>) $1 for $2 $3"
        { "typeParams": PARAMS, "tpe": A_TYPE, "forType": A_TYPE, "body": MEMBERS }
    0x7A "Impl" "impl?0(<$0>) $1 $2" { "typeParams": PARAMS, "tpe": A_TYPE, "body": MEMBERS }
    0x7B "Trait" "$0$1trait?2(<$2>) $3?4(: $4) $5"
        { "docString": DOC, "attributes": ATTRIBUTES, "typeParams": PARAMS, "tpe": A_TYPE, "parents": BOUNDS,
          "body": MEMBERS }
    0x7C "TopFn" "$0$1$2$3"
        { "docString": DOC, "attributes": ATTRIBUTES, "visibility": VISIBILITY, "fn": of(only(0x7D)) }
    0x7D "Fn" "fn $0?1(<$1>)($2)?3( -> $3)?4( { $4 })"
        { "name": NAME, "typeParams": PARAMS, "formals": FORMALS, "returnType": option(A_TYPE),
          "body": option(AN_EXPR) }
    0x7E "Formal" "$0: $1" { "name": NAME, "tpe": A_TYPE }
    0x7F "TypeParamDecl" "$0?1(: $1)" { "name": NAME, "constraints": BOUNDS }
    0x80 "Use" "$0use $1;" { "visibility": VISIBILITY, "path": A_PATH }
    0x81 "MatchCase" "$0 => $1" { "pattern": SHOWN, "rhs": AN_EXPR }
    0x82 "AssignIdentifier" "$0: $1" { "identifier": NAME, "rhs": AN_EXPR }
    0x83 "RawImplMember" "raw $0;" { "content": QUOTED }
    0x84 "FnDecl" "$0$1$2$3"
        { "docString": DOC, "attributes": ATTRIBUTES, "pub": VISIBILITY, "fun": of(only(0x7D)) }
    0x85 "TypeDeclMember" "type $0 = $1;" { "name": NAME, "rhs": A_TYPE }
    0x86 "ImplMemberMacro" "macro $0;" { "expr": AN_EXPR }
}

#[cfg(test)]
mod tests {
    use super::*;

    #[test]
    fn every_field_stands_once_in_its_pattern() {
        assert_eq!(KINDS.len(), 94);
        for kind in KINDS {
            let mut seen = vec![0; kind.fields.len()];
            let mut count = |pieces: &[Piece]| {
                for piece in pieces {
                    if let Piece::Field(n) = piece {
                        seen[*n] += 1;
                    }
                }
            };
            let rule = rule(kind.number).expect("each kind has a rule");
            count(&rule.pieces);
            for piece in &rule.pieces {
                if let Piece::Maybe(n, inner) = piece {
                    assert_ne!(kind.fields[*n].shape, Shape::One, "{}", kind.name);
                    assert!(inner.contains(&Piece::Field(*n)), "{}", kind.name);
                    count(inner);
                }
            }
            assert!(seen.iter().all(|n| *n == 1), "{}", kind.name);
        }
    }

    #[test]
    fn words_are_those_of_the_patterns() {
        for word in ["mod", "use", "enum", "impl", "u128", "Fn", "Self", "op", "mut", "while"] {
            assert!(WORDS.contains(&word), "{word}");
        }
        assert!(!WORDS.contains(&"self") && !WORDS.contains(&"new"));
    }
}
