//! Reading: each datatype from its record, with the first fault and its place.
use super::*;
use std::ops::RangeInclusive;

pub(super) type Reading<T> = Result<T, Refusal>;

pub(super) trait Read<'a>: Sized {
    fn read(records: &mut Records<'a>) -> Reading<Self>;
}

/// The records of one parent that are yet to be read.
pub(super) struct Records<'a> {
    bytes: &'a [u8],
    at: usize,
    end: usize,
    /// How many levels they may have.
    levels: u32,
}

/// Exactly one record, so many levels deep at most.
pub(super) fn whole<'a, T: Read<'a>>(bytes: &'a [u8], levels: u32) -> Reading<T> {
    let mut records = Records { bytes, at: 0, end: bytes.len(), levels };
    let it = records.get()?;
    records.close()?;
    Ok(it)
}

impl<'a> Records<'a> {
    fn get<T: Read<'a>>(&mut self) -> Reading<T> {
        T::read(self)
    }

    fn more(&self) -> bool {
        self.at < self.end
    }

    /// Goes past the next record: its kind, and the records in it.
    fn open(&mut self, kinds: RangeInclusive<u16>) -> Reading<(u16, Records<'a>)> {
        let place = self.at;
        let refuse = |number| Err((number, place as u32));
        let left = &self.bytes[place..self.end];
        let Some(&[a, b, c, d, k, l]) = left.first_chunk() else { return refuse(4) };
        let length = u32::from_le_bytes([a, b, c, d]) as usize;
        if length < 2 || length > left.len() - 4 {
            return refuse(4);
        }
        let kind = u16::from_le_bytes([k, l]);
        if !kinds.contains(&kind) {
            return refuse(5);
        }
        if self.levels == 0 {
            return refuse(6);
        }
        self.at = place + 4 + length;
        Ok((kind, Records { bytes: self.bytes, at: place + 6, end: self.at, levels: self.levels - 1 }))
    }

    fn one(&mut self, kind: u16) -> Reading<Records<'a>> {
        Ok(self.open(kind..=kind)?.1)
    }

    /// Nothing may be left over.
    fn close(self) -> Reading<()> {
        match self.more() {
            true => Err((7, self.at as u32)),
            false => Ok(()),
        }
    }

    fn rest(self) -> &'a [u8] {
        &self.bytes[self.at..self.end]
    }

    /// A Text that names something in a path.
    fn name(&mut self) -> Reading<Text<'a>> {
        let place = self.at as u32;
        match self.get()? {
            Text(b"" | b"!") => Err((11, place)),
            name => Ok(name),
        }
    }
}

impl<'a> Read<'a> for Text<'a> {
    fn read(records: &mut Records<'a>) -> Reading<Self> {
        Ok(Text(records.one(0x01)?.rest()))
    }
}

impl<'a> Read<'a> for Kept<'a> {
    fn read(records: &mut Records<'a>) -> Reading<Self> {
        Ok(Kept(records.one(0x03)?.rest()))
    }
}

impl<'a, T: Read<'a>> Read<'a> for Vec<T> {
    fn read(records: &mut Records<'a>) -> Reading<Self> {
        let mut list = records.one(0x02)?;
        let mut items = Vec::new();
        while list.more() {
            items.push(list.get()?);
        }
        Ok(items)
    }
}

impl<'a, T: Read<'a>> Read<'a> for Option<T> {
    fn read(records: &mut Records<'a>) -> Reading<Self> {
        let mut list = records.one(0x02)?;
        let it = if list.more() { Some(list.get()?) } else { None };
        list.close()?;
        Ok(it)
    }
}

impl<'a, T: Read<'a>> Read<'a> for Box<T> {
    fn read(records: &mut Records<'a>) -> Reading<Self> {
        records.get().map(Box::new)
    }
}

impl<'a, T: Read<'a>> Read<'a> for Rc<T> {
    fn read(records: &mut Records<'a>) -> Reading<Self> {
        records.get().map(Rc::new)
    }
}

impl<'a> Read<'a> for Path<'a> {
    fn read(records: &mut Records<'a>) -> Reading<Self> {
        let (kind, mut r) = records.open(0x10..=0x13)?;
        let path = match kind {
            0x10 => Path::Global,
            0x11 => Path::Crate,
            0x12 => Path::SelfType,
            _ => Path::Member(r.get()?, r.name()?),
        };
        r.close()?;
        Ok(path)
    }
}

impl<'a> Read<'a> for Type<'a> {
    fn read(records: &mut Records<'a>) -> Reading<Self> {
        let (kind, mut r) = records.open(0x20..=0x38)?;
        let tpe = match kind {
            0x20..=0x2B => Type::Plain(kind),
            0x2C => Type::Identifier(r.get()?),
            0x2D => Type::FromPath(r.get()?),
            0x2E => Type::App(r.get()?, r.get()?),
            0x2F => Type::Borrowed(r.get()?),
            0x30 => Type::BorrowedMut(r.get()?),
            0x31 => Type::Impl(r.get()?),
            0x32 => Type::Dyn(r.get()?),
            0x33 => Type::Tuple(r.get()?),
            0x34 => Type::Fn(r.get()?, r.get()?),
            0x35 => Type::Intersection(r.get()?, r.get()?),
            0x36 => Type::Array(r.get()?, r.get()?),
            0x37 => Type::Synonym(r.get()?, r.get()?),
            _ => Type::MetaData(r.get()?, r.get()?, r.get()?),
        };
        r.close()?;
        Ok(tpe)
    }
}

impl<'a> Read<'a> for Expr<'a> {
    fn read(records: &mut Records<'a>) -> Reading<Self> {
        let (kind, mut r) = records.open(0x40..=0x5E)?;
        let expr = match kind {
            0x40 => Expr::Raw(r.get()?),
            0x41 => Expr::FromType(r.get()?),
            0x42 => Expr::Identifier(r.get()?),
            0x43 => Expr::Match(r.get()?, r.get()?),
            0x44 => Expr::Stmt(r.get()?, r.get()?),
            0x45 => Expr::Block(r.get()?),
            0x46 => Expr::StructBuild(r.get()?, r.get()?),
            0x47 => Expr::Tuple(r.get()?),
            0x48 => Expr::Unary(r.get()?, r.get()?, r.get()?),
            0x49 => Expr::Binary(r.get()?, r.get()?, r.get()?, r.get()?),
            0x4A => Expr::TypeAscription(r.get()?, r.get()?),
            0x4B => Expr::TraitCast(r.get()?, r.get()?),
            0x4C => Expr::LiteralInt(r.get()?),
            0x4D => Expr::LiteralBool(r.get()?),
            0x4E => Expr::LiteralString(r.get()?, r.get()?, r.get()?),
            0x4F => Expr::DeclareVar(r.get()?, r.get()?, r.get()?, r.get()?),
            0x50 => Expr::Assign(r.get()?, r.get()?),
            0x51 => Expr::If(r.get()?, r.get()?, r.get()?),
            0x52 => Expr::Loop(r.get()?, r.get()?),
            0x53 => Expr::For(r.get()?, r.get()?, r.get()?),
            0x54 => Expr::Labelled(r.get()?, r.get()?),
            0x55 => Expr::Break(r.get()?),
            0x56 => Expr::Continue(r.get()?),
            0x57 => Expr::Return(r.get()?),
            0x58 => Expr::CallType(r.get()?, r.get()?),
            0x59 => Expr::Call(r.get()?, r.get()?),
            0x5A => Expr::Select(r.get()?, r.get()?),
            0x5B => Expr::SelectIndex(r.get()?, r.get()?),
            0x5C => Expr::FromPath(r.get()?),
            0x5D => Expr::FunctionSelect(r.get()?, r.get()?),
            _ => Expr::Lambda(r.get()?, r.get()?, r.get()?),
        };
        r.close()?;
        Ok(expr)
    }
}

impl<'a> Read<'a> for Member<'a> {
    fn read(records: &mut Records<'a>) -> Reading<Self> {
        let (kind, mut r) = records.open(0x83..=0x86)?;
        let member = match kind {
            0x83 => Member::Raw(r.get()?),
            0x84 => Member::Fn(r.get()?, r.get()?, r.get()?, r.get()?),
            0x85 => Member::Type(r.get()?, r.get()?),
            _ => Member::Macro(r.get()?),
        };
        r.close()?;
        Ok(member)
    }
}

impl<'a> Read<'a> for Fields<'a> {
    fn read(records: &mut Records<'a>) -> Reading<Self> {
        let (kind, mut r) = records.open(0x75..=0x76)?;
        let fields = match kind {
            0x75 => Fields::Named(r.get()?),
            _ => Fields::Nameless(r.get()?),
        };
        r.close()?;
        Ok(fields)
    }
}

impl<'a> Read<'a> for Impl<'a> {
    fn read(records: &mut Records<'a>) -> Reading<Self> {
        let (kind, mut r) = records.open(0x79..=0x7A)?;
        let params = r.get()?;
        let tpe = r.get()?;
        let for_type = if kind == 0x79 { Some(r.get()?) } else { None };
        let body = r.get()?;
        r.close()?;
        Ok(Impl { params, tpe, for_type, body })
    }
}

impl<'a> Read<'a> for Declaration<'a> {
    fn read(records: &mut Records<'a>) -> Reading<Self> {
        let (kind, mut r) = records.open(0x62..=0x6A)?;
        let declaration = match kind {
            0x62 => Declaration::Module(r.get()?),
            0x63 => Declaration::Struct(r.get()?),
            0x64 => Declaration::Type(r.get()?),
            0x65 => Declaration::Const(r.get()?),
            0x66 => Declaration::Enum(r.get()?),
            0x67 => Declaration::Impl(r.get()?),
            0x68 => Declaration::Trait(r.get()?),
            0x69 => Declaration::TopFn(r.get()?),
            _ => Declaration::Use(r.get()?),
        };
        r.close()?;
        Ok(declaration)
    }
}

impl<'a> Read<'a> for Module<'a> {
    fn read(records: &mut Records<'a>) -> Reading<Self> {
        let place = records.at;
        let (kind, mut r) = records.open(0x60..=0x61)?;
        let module = match kind {
            0x60 => Module::Mod(Mod { place, about: r.get()?, name: r.get()?, body: r.get()? }),
            _ => Module::Extern(r.get()?),
        };
        r.close()?;
        Ok(module)
    }
}

/// Two fields of the record that begins with them.
impl<'a> Read<'a> for Documented<'a> {
    fn read(records: &mut Records<'a>) -> Reading<Self> {
        Ok(Documented { doc: records.get()?, attributes: records.get()? })
    }
}

macro_rules! read_each {
    ($($name:ident $kind:literal { $($field:ident),* })*) => {$(
        impl<'a> Read<'a> for $name<'a> {
            fn read(records: &mut Records<'a>) -> Reading<Self> {
                let mut r = records.one($kind)?;
                let it = $name { $($field: r.get()?),* };
                r.close()?;
                Ok(it)
            }
        }
    )*};
}

one_constructor!(read_each);
