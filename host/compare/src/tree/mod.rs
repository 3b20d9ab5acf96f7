//! Shortening by a typed tree, as the papers state it, in ordinary Rust: the card is read into the
//! datatypes of the Dafny text, each module is collected and replaced in place, and the tree is written.
//! It shares nothing with the proved code.
/// Datatypes with one constructor: its kind and its fields, in their order.
macro_rules! one_constructor {
    ($each:ident) => {
        $each! {
            Struct 0x70 { about, name, params, fields }
            TypeSynonym 0x71 { about, name, params, tpe }
            Constant 0x72 { about, name, tpe, value }
            Enum 0x73 { about, name, params, variants }
            EnumCase 0x74 { doc, name, fields }
            Field 0x77 { visibility, formal }
            NamelessField 0x78 { visibility, tpe }
            Trait 0x7B { about, params, tpe, parents, body }
            TopFn 0x7C { about, visibility, function }
            Function 0x7D { name, params, formals, result, body }
            Formal 0x7E { name, tpe }
            TypeParam 0x7F { name, constraints }
            Use 0x80 { visibility, path }
            MatchCase 0x81 { pattern, rhs }
            AssignIdentifier 0x82 { identifier, rhs }
        }
    };
}

mod collect;
mod read;
mod replace;
mod write;

use crate::{most_pairs, Answer, Listed, Mark, Operation, Refusal, MOST_CARD, MOST_ROOT, WORDS};
use std::rc::Rc;

pub use collect::{is_runtime, Mapping};
pub use write::bytes;
use write::{written, Places};

/// A string's bytes, a part of the card.
#[derive(Clone, Copy, Debug, PartialEq, Eq, Hash)]
pub struct Text<'a>(pub &'a [u8]);

/// Bytes carried over unread.
#[derive(Clone, Copy, Debug)]
pub struct Kept<'a>(pub &'a [u8]);

#[derive(Debug, PartialEq, Eq, Hash)]
pub enum Path<'a> {
    Global,
    Crate,
    SelfType,
    Member(Rc<Path<'a>>, Text<'a>),
}

#[derive(Debug)]
pub enum Type<'a> {
    /// U8 to Bool, by its kind.
    Plain(u16),
    Identifier(Text<'a>),
    FromPath(Path<'a>),
    App(Box<Type<'a>>, Vec<Type<'a>>),
    Borrowed(Box<Type<'a>>),
    BorrowedMut(Box<Type<'a>>),
    Impl(Box<Type<'a>>),
    Dyn(Box<Type<'a>>),
    Tuple(Vec<Type<'a>>),
    Fn(Vec<Type<'a>>, Box<Type<'a>>),
    Intersection(Box<Type<'a>>, Box<Type<'a>>),
    Array(Box<Type<'a>>, Option<Text<'a>>),
    /// Display and base.
    Synonym(Box<Type<'a>>, Box<Type<'a>>),
    /// The outermost synonym put around a path type.
    Short(Box<Type<'a>>, Box<Type<'a>>),
    MetaData(Box<Type<'a>>, Kept<'a>, Kept<'a>),
}

#[derive(Debug)]
pub enum Expr<'a> {
    Raw(Text<'a>),
    FromType(Type<'a>),
    Identifier(Text<'a>),
    /// An identifier put for a path expression.
    Short(Text<'a>),
    Match(Box<Expr<'a>>, Vec<MatchCase<'a>>),
    Stmt(Box<Expr<'a>>, Box<Expr<'a>>),
    Block(Box<Expr<'a>>),
    StructBuild(Box<Expr<'a>>, Vec<AssignIdentifier<'a>>),
    Tuple(Vec<Expr<'a>>),
    Unary(Text<'a>, Box<Expr<'a>>, Kept<'a>),
    Binary(Text<'a>, Box<Expr<'a>>, Box<Expr<'a>>, Kept<'a>),
    TypeAscription(Box<Expr<'a>>, Type<'a>),
    TraitCast(Type<'a>, Type<'a>),
    LiteralInt(Text<'a>),
    LiteralBool(Kept<'a>),
    LiteralString(Text<'a>, Kept<'a>, Kept<'a>),
    DeclareVar(Kept<'a>, Text<'a>, Option<Type<'a>>, Option<Box<Expr<'a>>>),
    Assign(Kept<'a>, Box<Expr<'a>>),
    If(Box<Expr<'a>>, Box<Expr<'a>>, Box<Expr<'a>>),
    Loop(Option<Box<Expr<'a>>>, Box<Expr<'a>>),
    For(Text<'a>, Box<Expr<'a>>, Box<Expr<'a>>),
    Labelled(Text<'a>, Box<Expr<'a>>),
    Break(Option<Text<'a>>),
    Continue(Option<Text<'a>>),
    Return(Option<Box<Expr<'a>>>),
    CallType(Box<Expr<'a>>, Vec<Type<'a>>),
    Call(Box<Expr<'a>>, Vec<Expr<'a>>),
    Select(Box<Expr<'a>>, Text<'a>),
    SelectIndex(Box<Expr<'a>>, Box<Expr<'a>>),
    FromPath(Path<'a>),
    FunctionSelect(Box<Expr<'a>>, Text<'a>),
    Lambda(Vec<Formal<'a>>, Option<Type<'a>>, Box<Expr<'a>>),
}

#[derive(Debug)]
pub struct MatchCase<'a> {
    pattern: Kept<'a>,
    rhs: Expr<'a>,
}

#[derive(Debug)]
pub struct AssignIdentifier<'a> {
    identifier: Text<'a>,
    rhs: Expr<'a>,
}

#[derive(Debug)]
pub struct Formal<'a> {
    name: Text<'a>,
    tpe: Type<'a>,
}

#[derive(Debug)]
pub struct TypeParam<'a> {
    name: Text<'a>,
    constraints: Vec<Type<'a>>,
}

#[derive(Debug)]
pub struct Function<'a> {
    name: Text<'a>,
    params: Vec<TypeParam<'a>>,
    formals: Vec<Formal<'a>>,
    result: Option<Type<'a>>,
    body: Option<Expr<'a>>,
}

#[derive(Debug)]
pub enum Member<'a> {
    Raw(Text<'a>),
    Fn(Text<'a>, Kept<'a>, Kept<'a>, Function<'a>),
    Type(Text<'a>, Type<'a>),
    Macro(Expr<'a>),
}

#[derive(Debug)]
pub enum Fields<'a> {
    Named(Vec<Field<'a>>),
    Nameless(Vec<NamelessField<'a>>),
}

#[derive(Debug)]
pub struct Field<'a> {
    visibility: Kept<'a>,
    formal: Formal<'a>,
}

#[derive(Debug)]
pub struct NamelessField<'a> {
    visibility: Kept<'a>,
    tpe: Type<'a>,
}

#[derive(Debug)]
pub struct EnumCase<'a> {
    doc: Text<'a>,
    name: Text<'a>,
    fields: Fields<'a>,
}

/// With what most declarations begin.
#[derive(Debug)]
pub struct Documented<'a> {
    doc: Text<'a>,
    attributes: Kept<'a>,
}

#[derive(Debug)]
pub struct Struct<'a> {
    about: Documented<'a>,
    name: Text<'a>,
    params: Vec<TypeParam<'a>>,
    fields: Fields<'a>,
}

#[derive(Debug)]
pub struct TypeSynonym<'a> {
    about: Documented<'a>,
    name: Text<'a>,
    params: Vec<TypeParam<'a>>,
    tpe: Type<'a>,
}

#[derive(Debug)]
pub struct Constant<'a> {
    about: Documented<'a>,
    name: Text<'a>,
    tpe: Type<'a>,
    value: Expr<'a>,
}

#[derive(Debug)]
pub struct Enum<'a> {
    about: Documented<'a>,
    name: Text<'a>,
    params: Vec<TypeParam<'a>>,
    variants: Vec<EnumCase<'a>>,
}

#[derive(Debug)]
pub struct Impl<'a> {
    params: Vec<TypeParam<'a>>,
    tpe: Type<'a>,
    /// An ImplFor has it, an Impl has not.
    for_type: Option<Type<'a>>,
    body: Vec<Member<'a>>,
}

#[derive(Debug)]
pub struct Trait<'a> {
    about: Documented<'a>,
    params: Vec<TypeParam<'a>>,
    tpe: Type<'a>,
    parents: Vec<Type<'a>>,
    body: Vec<Member<'a>>,
}

#[derive(Debug)]
pub struct TopFn<'a> {
    about: Documented<'a>,
    visibility: Kept<'a>,
    function: Function<'a>,
}

#[derive(Debug)]
pub struct Use<'a> {
    visibility: Kept<'a>,
    path: Path<'a>,
}

#[derive(Debug)]
pub enum Declaration<'a> {
    Module(Module<'a>),
    Struct(Struct<'a>),
    Type(TypeSynonym<'a>),
    Const(Constant<'a>),
    Enum(Enum<'a>),
    Impl(Impl<'a>),
    Trait(Trait<'a>),
    TopFn(TopFn<'a>),
    Use(Use<'a>),
    /// A use put ahead of the body.
    Put(Use<'a>),
}

#[derive(Debug)]
pub enum Module<'a> {
    Mod(Mod<'a>),
    Extern(Text<'a>),
}

#[derive(Debug)]
pub struct Mod<'a> {
    /// Where its record stands in the card.
    place: usize,
    about: Documented<'a>,
    name: Text<'a>,
    pub body: Vec<Declaration<'a>>,
}

impl<'a> Module<'a> {
    pub fn name(&self) -> Text<'a> {
        match self {
            Module::Mod(module) => module.name,
            Module::Extern(name) => *name,
        }
    }

    /// As the text's apply does, under the outermost module's prefix. No module may have more than `most` pairs.
    fn apply(&mut self, operation: Operation, root: Rc<Path<'a>>, most: usize) -> Result<(), Refusal> {
        let prefix = select(&root, self.name());
        self.apply_prefix(operation, &prefix, most)
    }

    fn apply_prefix(
        &mut self,
        operation: Operation,
        prefix: &Rc<Path<'a>>,
        most: usize,
    ) -> Result<(), Refusal> {
        let Module::Mod(module) = self else { return Ok(()) };
        let mapping = Mapping::of(module, prefix);
        if mapping.pairs.len() > most {
            return Err((8, module.place as u32));
        }
        let replacement = mapping.replacement(operation);
        let uses = mapping.uses();
        for declaration in &mut module.body {
            match declaration {
                // ReplaceModDecl adds the name to the prefix, and PathSimplifier adds it again.
                Declaration::Module(nested) => {
                    let name = nested.name();
                    let once = select(prefix, name);
                    let prefix = match operation {
                        Operation::Upstream => select(&once, name),
                        Operation::Straight => once,
                    };
                    nested.apply_prefix(operation, &prefix, most)?;
                }
                other => replacement.declaration(other),
            }
        }
        const PUB: Kept = Kept(&[1]);
        let uses = uses.map(|(name, base)| {
            Declaration::Put(Use { visibility: PUB, path: Path::Member(base.clone(), name) })
        });
        module.body.splice(..0, uses);
        Ok(())
    }
}

/// The path of an item under another.
pub fn select<'a>(base: &Rc<Path<'a>>, name: Text<'a>) -> Rc<Path<'a>> {
    Rc::new(Path::Member(base.clone(), name))
}

/// The card's module and the root's path, or the first refusal of what is lent and of reading.
pub fn read<'a>(card: &'a [u8], root: &'a [u8], words: usize) -> Result<(Module<'a>, Rc<Path<'a>>), Refusal> {
    if words < WORDS {
        return Err((1, 0));
    }
    if card.len() > MOST_CARD {
        return Err((2, 0));
    }
    if root.len() > MOST_ROOT {
        return Err((3, 0));
    }
    let root = read::whole(root, 8).map_err(|_| (3, 0))?;
    let module = read::whole(card, 48)?;
    Ok((module, root))
}

/// What the outermost module collects, or a refusal of it or of reading.
pub fn outermost<'a>(card: &'a [u8], root: &'a [u8], words: usize) -> Result<Mapping<'a>, Refusal> {
    let (module, root) = read(card, root, words)?;
    let prefix = select(&root, module.name());
    let mapping = match &module {
        Module::Mod(module) => Mapping::of(module, &prefix),
        Module::Extern(_) => Mapping::new(&prefix),
    };
    match mapping.pairs.len() > most_pairs(words) {
        true => Err((8, 0)),
        false => Ok(mapping),
    }
}

/// The card's module with its names shortened, or the first refusal but 9 and 10.
fn shortened<'a>(
    operation: Operation,
    card: &'a [u8],
    root: &'a [u8],
    words: usize,
) -> Result<Module<'a>, Refusal> {
    let (mut module, root) = read(card, root, words)?;
    module.apply(operation, root, most_pairs(words))?;
    Ok(module)
}

/// The output's length, the output being at the front of `out`; or a refusal's number and place.
pub fn shorten(operation: Operation, card: &[u8], root: &[u8], out: &mut [u8], words: usize) -> Answer {
    let module = shortened(operation, card, root, words)?;
    let output = bytes(&module);
    let front = out.get_mut(..output.len()).ok_or((9, 0))?;
    front.copy_from_slice(&output);
    Ok(output.len())
}

/// The whole output of an accepted card.
pub struct Whole {
    pub output: Vec<u8>,
    /// Two words for each entry.
    pub list: Vec<u32>,
}

/// What comes of a card where there is room for all of it: only 1 to 8 and 11 are refused.
pub fn whole(operation: Operation, card: &[u8], root: &[u8], words: usize) -> Result<Whole, Refusal> {
    let module = shortened(operation, card, root, words)?;
    let mut places = Places::new();
    let output = written(&module, Some(&mut places));
    Ok(Whole { output, list: places.into_flattened() })
}

/// The same as `shorten` with a list: the number of its entries too, each two words, at the front of `list`.
pub fn shorten_places(
    operation: Operation,
    card: &[u8],
    root: &[u8],
    out: &mut [u8],
    words: usize,
    list: &mut [u32],
) -> Listed {
    let whole = whole(operation, card, root, words)?;
    let front = out.get_mut(..whole.output.len()).ok_or((9, 0))?;
    let entries = list.get_mut(..whole.list.len()).ok_or((10, 0))?;
    front.copy_from_slice(&whole.output);
    entries.copy_from_slice(&whole.list);
    Ok((whole.output.len(), whole.list.len() / 2))
}
