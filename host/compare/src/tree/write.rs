//! Writing: each datatype as its record.
use super::*;

/// Offset and mark of each record that was put into the tree, in their order.
pub type Places = Vec<[u32; 2]>;

/// The bytes so far and, where they are wanted, the places.
pub struct Output<'p> {
    bytes: Vec<u8>,
    places: Option<&'p mut Places>,
}

impl Output<'_> {
    /// The record that comes next was put into the tree.
    fn note(&mut self, mark: Mark) {
        if let Some(places) = &mut self.places {
            places.push([self.bytes.len() as u32, mark as u32]);
        }
    }
}

/// A record, or records one after the other.
pub trait Write {
    fn write(&self, out: &mut Output);
}

/// The bytes of a record.
pub fn bytes(it: &impl Write) -> Vec<u8> {
    written(it, None)
}

/// The bytes of a record, and the places where they are wanted.
pub fn written(it: &impl Write, places: Option<&mut Places>) -> Vec<u8> {
    let mut out = Output { bytes: Vec::new(), places };
    it.write(&mut out);
    out.bytes
}

/// A record of this kind whose content the function writes.
fn content(out: &mut Output, kind: u16, write: impl FnOnce(&mut Output)) {
    let start = out.bytes.len();
    out.bytes.extend([0; 4]);
    out.bytes.extend(kind.to_le_bytes());
    write(out);
    let length = (out.bytes.len() - start - 4) as u32;
    out.bytes[start..start + 4].copy_from_slice(&length.to_le_bytes());
}

fn record(out: &mut Output, kind: u16, fields: &[&dyn Write]) {
    content(out, kind, |out| {
        for field in fields {
            field.write(out);
        }
    });
}

impl Write for Text<'_> {
    fn write(&self, out: &mut Output) {
        content(out, 0x01, |out| out.bytes.extend(self.0));
    }
}

impl Write for Kept<'_> {
    fn write(&self, out: &mut Output) {
        content(out, 0x03, |out| out.bytes.extend(self.0));
    }
}

impl<T: Write> Write for Vec<T> {
    fn write(&self, out: &mut Output) {
        content(out, 0x02, |out| self.iter().for_each(|item| item.write(out)));
    }
}

impl<T: Write> Write for Option<T> {
    fn write(&self, out: &mut Output) {
        content(out, 0x02, |out| self.iter().for_each(|item| item.write(out)));
    }
}

impl<T: Write> Write for Box<T> {
    fn write(&self, out: &mut Output) {
        T::write(self, out);
    }
}

impl<T: Write> Write for Rc<T> {
    fn write(&self, out: &mut Output) {
        T::write(self, out);
    }
}

impl Write for Path<'_> {
    fn write(&self, out: &mut Output) {
        match self {
            Path::Global => record(out, 0x10, &[]),
            Path::Crate => record(out, 0x11, &[]),
            Path::SelfType => record(out, 0x12, &[]),
            Path::Member(base, name) => record(out, 0x13, &[base, name]),
        }
    }
}

impl Write for Type<'_> {
    fn write(&self, out: &mut Output) {
        match self {
            Type::Plain(kind) => record(out, *kind, &[]),
            Type::Identifier(name) => record(out, 0x2C, &[name]),
            Type::FromPath(path) => record(out, 0x2D, &[path]),
            Type::App(base, arguments) => record(out, 0x2E, &[base, arguments]),
            Type::Borrowed(underlying) => record(out, 0x2F, &[underlying]),
            Type::BorrowedMut(underlying) => record(out, 0x30, &[underlying]),
            Type::Impl(underlying) => record(out, 0x31, &[underlying]),
            Type::Dyn(underlying) => record(out, 0x32, &[underlying]),
            Type::Tuple(arguments) => record(out, 0x33, &[arguments]),
            Type::Fn(arguments, result) => record(out, 0x34, &[arguments, result]),
            Type::Intersection(left, right) => record(out, 0x35, &[left, right]),
            Type::Array(underlying, size) => record(out, 0x36, &[underlying, size]),
            Type::Synonym(display, base) => record(out, 0x37, &[display, base]),
            Type::Short(display, base) => {
                out.note(Mark::Type);
                record(out, 0x37, &[display, base]);
            }
            Type::MetaData(display, copies, overflow) => record(out, 0x38, &[display, copies, overflow]),
        }
    }
}

impl Write for Expr<'_> {
    fn write(&self, out: &mut Output) {
        match self {
            Expr::Raw(content) => record(out, 0x40, &[content]),
            Expr::FromType(tpe) => record(out, 0x41, &[tpe]),
            Expr::Identifier(name) => record(out, 0x42, &[name]),
            Expr::Short(name) => {
                out.note(Mark::Expr);
                record(out, 0x42, &[name]);
            }
            Expr::Match(matchee, cases) => record(out, 0x43, &[matchee, cases]),
            Expr::Stmt(stmt, rhs) => record(out, 0x44, &[stmt, rhs]),
            Expr::Block(underlying) => record(out, 0x45, &[underlying]),
            Expr::StructBuild(underlying, assignments) => record(out, 0x46, &[underlying, assignments]),
            Expr::Tuple(arguments) => record(out, 0x47, &[arguments]),
            Expr::Unary(op, underlying, format) => record(out, 0x48, &[op, underlying, format]),
            Expr::Binary(op, left, right, format) => record(out, 0x49, &[op, left, right, format]),
            Expr::TypeAscription(left, tpe) => record(out, 0x4A, &[left, tpe]),
            Expr::TraitCast(left, tpe) => record(out, 0x4B, &[left, tpe]),
            Expr::LiteralInt(value) => record(out, 0x4C, &[value]),
            Expr::LiteralBool(value) => record(out, 0x4D, &[value]),
            Expr::LiteralString(value, binary, verbatim) => record(out, 0x4E, &[value, binary, verbatim]),
            Expr::DeclareVar(sort, name, tpe, rhs) => record(out, 0x4F, &[sort, name, tpe, rhs]),
            Expr::Assign(names, rhs) => record(out, 0x50, &[names, rhs]),
            Expr::If(condition, then, other) => record(out, 0x51, &[condition, then, other]),
            Expr::Loop(condition, underlying) => record(out, 0x52, &[condition, underlying]),
            Expr::For(name, range, body) => record(out, 0x53, &[name, range, body]),
            Expr::Labelled(label, underlying) => record(out, 0x54, &[label, underlying]),
            Expr::Break(label) => record(out, 0x55, &[label]),
            Expr::Continue(label) => record(out, 0x56, &[label]),
            Expr::Return(value) => record(out, 0x57, &[value]),
            Expr::CallType(object, arguments) => record(out, 0x58, &[object, arguments]),
            Expr::Call(object, arguments) => record(out, 0x59, &[object, arguments]),
            Expr::Select(object, name) => record(out, 0x5A, &[object, name]),
            Expr::SelectIndex(object, range) => record(out, 0x5B, &[object, range]),
            Expr::FromPath(path) => record(out, 0x5C, &[path]),
            Expr::FunctionSelect(object, name) => record(out, 0x5D, &[object, name]),
            Expr::Lambda(formals, result, body) => record(out, 0x5E, &[formals, result, body]),
        }
    }
}

impl Write for Member<'_> {
    fn write(&self, out: &mut Output) {
        match self {
            Member::Raw(content) => record(out, 0x83, &[content]),
            Member::Fn(doc, attributes, public, function) => {
                record(out, 0x84, &[doc, attributes, public, function])
            }
            Member::Type(name, tpe) => record(out, 0x85, &[name, tpe]),
            Member::Macro(expr) => record(out, 0x86, &[expr]),
        }
    }
}

impl Write for Fields<'_> {
    fn write(&self, out: &mut Output) {
        match self {
            Fields::Named(fields) => record(out, 0x75, &[fields]),
            Fields::Nameless(fields) => record(out, 0x76, &[fields]),
        }
    }
}

impl Write for Impl<'_> {
    fn write(&self, out: &mut Output) {
        match &self.for_type {
            Some(for_type) => record(out, 0x79, &[&self.params, &self.tpe, for_type, &self.body]),
            None => record(out, 0x7A, &[&self.params, &self.tpe, &self.body]),
        }
    }
}

impl Write for Declaration<'_> {
    fn write(&self, out: &mut Output) {
        match self {
            Declaration::Module(module) => record(out, 0x62, &[module]),
            Declaration::Struct(it) => record(out, 0x63, &[it]),
            Declaration::Type(it) => record(out, 0x64, &[it]),
            Declaration::Const(it) => record(out, 0x65, &[it]),
            Declaration::Enum(it) => record(out, 0x66, &[it]),
            Declaration::Impl(it) => record(out, 0x67, &[it]),
            Declaration::Trait(it) => record(out, 0x68, &[it]),
            Declaration::TopFn(it) => record(out, 0x69, &[it]),
            Declaration::Use(it) => record(out, 0x6A, &[it]),
            Declaration::Put(it) => {
                out.note(Mark::Use);
                record(out, 0x6A, &[it]);
            }
        }
    }
}

impl Write for Module<'_> {
    fn write(&self, out: &mut Output) {
        match self {
            Module::Mod(it) => record(out, 0x60, &[&it.about, &it.name, &it.body]),
            Module::Extern(name) => record(out, 0x61, &[name]),
        }
    }
}

impl Write for Documented<'_> {
    fn write(&self, out: &mut Output) {
        self.doc.write(out);
        self.attributes.write(out);
    }
}

macro_rules! write_each {
    ($($name:ident $kind:literal { $($field:ident),* })*) => {$(
        impl Write for $name<'_> {
            fn write(&self, out: &mut Output) {
                record(out, $kind, &[$(&self.$field),*]);
            }
        }
    )*};
}

one_constructor!(write_each);
