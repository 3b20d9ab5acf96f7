//! One row of child places for each kind, from document 01 and the Dafny text.

/// What may stand at a field.
#[derive(Clone, Copy)]
pub struct Place {
    /// Kinds, of the record or of those in its List.
    pub first: u8,
    pub last: u8,
    pub shape: Shape,
    pub what: What,
}

/// One record, a List of any number, or a List of one at most.
#[derive(Clone, Copy, PartialEq)]
pub enum Shape {
    One,
    List,
    Option,
}

#[derive(Clone, Copy, PartialEq)]
pub enum What {
    /// Text or Kept.
    Bytes,
    /// A Text that is a declaration's own name.
    Own,
    Path,
    Module,
    /// Any other, by its own row.
    Fields,
    /// By its own row, and nothing in it is collected.
    Unseen,
    /// By its own row, and in it types and expressions around a path type are counted.
    Counted,
}

const fn place(first: u8, last: u8, what: What) -> Place {
    Place { first, last, shape: Shape::One, what }
}

const fn one(kind: u8) -> Place {
    place(kind, kind, What::Fields)
}

const fn list(of: Place) -> Place {
    Place { shape: Shape::List, ..of }
}

const fn option(of: Place) -> Place {
    Place { shape: Shape::Option, ..of }
}

const fn unseen(of: Place) -> Place {
    Place { what: What::Unseen, ..of }
}

const fn counted(of: Place) -> Place {
    Place { what: What::Counted, ..of }
}

pub const TEXT: Place = place(0x01, 0x01, What::Bytes);
const OPT_TEXT: Place = option(TEXT);
const OWN: Place = place(0x01, 0x01, What::Own);
pub const KEPT: Place = place(0x03, 0x03, What::Bytes);
pub const PATH: Place = place(0x10, 0x13, What::Path);
const TYPE: Place = place(0x20, 0x38, What::Fields);
const TYPES: Place = list(TYPE);
const OPT_TYPE: Place = option(TYPE);
/// The base of a synonym.
const BASE_TYPE: Place = unseen(TYPE);
const EXPR: Place = place(0x40, 0x5E, What::Fields);
const EXPRS: Place = list(EXPR);
const OPT_EXPR: Place = option(EXPR);
pub const MODULE: Place = place(0x60, 0x61, What::Module);
pub const DECLARATIONS: Place = list(place(0x62, 0x6A, What::Fields));
const STRUCT: Place = one(0x70);
const SYNONYM: Place = one(0x71);
const CONSTANT: Place = one(0x72);
const ENUM: Place = one(0x73);
const ENUM_CASES: Place = list(one(0x74));
const FIELDS: Place = place(0x75, 0x76, What::Fields);
const STRUCT_FIELDS: Place = unseen(FIELDS);
const NAMED: Place = list(one(0x77));
const NAMELESS: Place = list(one(0x78));
const IMPL: Place = place(0x79, 0x7A, What::Fields);
const TRAIT: Place = one(0x7B);
const TOP_FN: Place = one(0x7C);
const FN: Place = one(0x7D);
const FN_FORMALS: Place = counted(FORMALS);
const FN_RESULT: Place = counted(OPT_TYPE);
const FN_BODY: Place = counted(OPT_EXPR);
const FORMAL: Place = one(0x7E);
const FORMALS: Place = list(FORMAL);
const PARAMS: Place = list(one(0x7F));
const IMPL_PARAMS: Place = unseen(PARAMS);
const USE: Place = one(0x80);
const MATCH_CASES: Place = list(one(0x81));
const ASSIGNMENTS: Place = list(one(0x82));
const MEMBERS: Place = list(place(0x83, 0x86, What::Fields));

/// Text, Kept, List, the paths and the modules have none here.
const fn row(kind: usize) -> &'static [Place] {
    match kind {
        // Types. A synonym's base isn't collected.
        0x2C => &[TEXT],
        0x2D => &[PATH],
        0x2E => &[TYPE, TYPES],
        0x2F..=0x32 => &[TYPE],
        0x33 => &[TYPES],
        0x34 => &[TYPES, TYPE],
        0x35 => &[TYPE, TYPE],
        0x36 => &[TYPE, OPT_TEXT],
        0x37 => &[TYPE, BASE_TYPE],
        0x38 => &[TYPE, KEPT, KEPT],
        // Expressions.
        0x40 | 0x42 | 0x4C => &[TEXT],
        0x41 => &[TYPE],
        0x43 => &[EXPR, MATCH_CASES],
        0x44 | 0x5B => &[EXPR, EXPR],
        0x45 => &[EXPR],
        0x46 => &[EXPR, ASSIGNMENTS],
        0x47 => &[EXPRS],
        0x48 => &[TEXT, EXPR, KEPT],
        0x49 => &[TEXT, EXPR, EXPR, KEPT],
        0x4A => &[EXPR, TYPE],
        0x4B => &[TYPE, TYPE],
        0x4D => &[KEPT],
        0x4E => &[TEXT, KEPT, KEPT],
        0x4F => &[KEPT, TEXT, OPT_TYPE, OPT_EXPR],
        0x50 => &[KEPT, EXPR],
        0x51 => &[EXPR, EXPR, EXPR],
        0x52 => &[OPT_EXPR, EXPR],
        0x53 => &[TEXT, EXPR, EXPR],
        0x54 => &[TEXT, EXPR],
        0x55 | 0x56 => &[OPT_TEXT],
        0x57 => &[OPT_EXPR],
        0x58 => &[EXPR, TYPES],
        0x59 => &[EXPR, EXPRS],
        0x5A | 0x5D => &[EXPR, TEXT],
        0x5C => &[PATH],
        0x5E => &[FORMALS, OPT_TYPE, EXPR],
        // Declarations. A struct's fields and an Impl's type parameters aren't collected.
        0x62 => &[MODULE],
        0x63 => &[STRUCT],
        0x64 => &[SYNONYM],
        0x65 => &[CONSTANT],
        0x66 => &[ENUM],
        0x67 => &[IMPL],
        0x68 => &[TRAIT],
        0x69 => &[TOP_FN],
        0x6A => &[USE],
        0x70 => &[TEXT, KEPT, OWN, PARAMS, STRUCT_FIELDS],
        0x71 => &[TEXT, KEPT, OWN, PARAMS, TYPE],
        0x72 => &[TEXT, KEPT, OWN, TYPE, EXPR],
        0x73 => &[TEXT, KEPT, OWN, PARAMS, ENUM_CASES],
        0x74 => &[TEXT, TEXT, FIELDS],
        0x75 => &[NAMED],
        0x76 => &[NAMELESS],
        0x77 => &[KEPT, FORMAL],
        0x78 => &[KEPT, TYPE],
        0x79 => &[PARAMS, TYPE, TYPE, MEMBERS],
        0x7A => &[IMPL_PARAMS, TYPE, MEMBERS],
        0x7B => &[TEXT, KEPT, PARAMS, TYPE, TYPES, MEMBERS],
        0x7C => &[TEXT, KEPT, KEPT, FN],
        0x7D => &[TEXT, PARAMS, FN_FORMALS, FN_RESULT, FN_BODY],
        0x7E => &[TEXT, TYPE],
        0x7F => &[TEXT, TYPES],
        0x80 => &[KEPT, PATH],
        0x81 => &[KEPT, EXPR],
        0x82 => &[TEXT, EXPR],
        0x83 => &[TEXT],
        0x84 => &[TEXT, KEPT, KEPT, FN],
        0x85 => &[TEXT, TYPE],
        0x86 => &[EXPR],
        _ => &[],
    }
}

pub static ROWS: [&[Place]; 0x87] = {
    let mut rows: [&[Place]; 0x87] = [&[]; 0x87];
    let mut kind = 0;
    while kind < rows.len() {
        rows[kind] = row(kind);
        kind += 1;
    }
    rows
};
