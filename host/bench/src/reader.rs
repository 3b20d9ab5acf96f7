//! Reading alone, as document 01 states it, with nothing kept: a function for each datatype.
use compare::{Refusal, MOST_CARD, MOST_ROOT, WORDS};
use std::ops::RangeInclusive;

type Reading = Result<(), Refusal>;

fn refuse(number: u32, place: usize) -> Reading {
    Err((number, place as u32))
}

/// The first refusal of 1 to 7 and 11.
pub fn admit(card: &[u8], root: &[u8], words: usize) -> Reading {
    if words < WORDS {
        return refuse(1, 0);
    }
    if card.len() > MOST_CARD {
        return refuse(2, 0);
    }
    if root.len() > MOST_ROOT || whole(root, 8, Records::path).is_err() {
        return refuse(3, 0);
    }
    whole(card, 48, Records::module)
}

fn whole<'a>(bytes: &'a [u8], deepest: u32, read: impl Fn(&mut Records<'a>) -> Reading) -> Reading {
    let mut records = Records { bytes, at: 0, end: bytes.len(), depth: 1, deepest };
    read(&mut records)?;
    records.finish()
}

/// The records of one parent that are yet to be read.
#[derive(Clone, Copy)]
struct Records<'a> {
    bytes: &'a [u8],
    at: usize,
    end: usize,
    depth: u32,
    deepest: u32,
}

impl<'a> Records<'a> {
    fn finish(&self) -> Reading {
        if self.at < self.end {
            return refuse(7, self.at);
        }
        Ok(())
    }

    fn record(
        &mut self,
        kinds: RangeInclusive<u16>,
        fields: impl FnOnce(u16, &mut Records<'a>) -> Reading,
    ) -> Reading {
        let place = self.at;
        let &[a, b, c, d, k, l, ..] = &self.bytes[place..self.end] else {
            return refuse(4, place);
        };
        let length = u32::from_le_bytes([a, b, c, d]) as usize;
        if length < 2 || length > self.end - place - 4 {
            return refuse(4, place);
        }
        let kind = u16::from_le_bytes([k, l]);
        if !kinds.contains(&kind) {
            return refuse(5, place);
        }
        if self.depth > self.deepest {
            return refuse(6, place);
        }
        let end = place + 4 + length;
        let mut inside = Records { at: place + 6, end, depth: self.depth + 1, ..*self };
        fields(kind, &mut inside)?;
        inside.finish()?;
        self.at = end;
        Ok(())
    }

    fn one(&mut self, kind: u16, fields: impl FnOnce(&mut Records<'a>) -> Reading) -> Reading {
        self.record(kind..=kind, |_, r| fields(r))
    }

    fn text(&mut self) -> Reading {
        self.one(0x01, Records::skip)
    }

    /// A Text that names something in a path.
    fn name(&mut self) -> Reading {
        let place = self.at;
        self.one(0x01, |r| match r.bytes[r.at..r.end] {
            [] | [b'!'] => refuse(11, place),
            _ => r.skip(),
        })
    }

    fn kept(&mut self) -> Reading {
        self.one(0x03, Records::skip)
    }

    fn skip(&mut self) -> Reading {
        self.at = self.end;
        Ok(())
    }

    fn list(&mut self, each: impl Fn(&mut Records<'a>) -> Reading) -> Reading {
        self.one(0x02, |r| {
            while r.at < r.end {
                each(r)?;
            }
            Ok(())
        })
    }

    fn option(&mut self, it: impl Fn(&mut Records<'a>) -> Reading) -> Reading {
        self.one(0x02, |r| if r.at < r.end { it(r) } else { Ok(()) })
    }

    fn path(&mut self) -> Reading {
        self.record(0x10..=0x13, |kind, r| match kind {
            0x13 => {
                r.path()?;
                r.name()
            }
            _ => Ok(()),
        })
    }

    fn ty(&mut self) -> Reading {
        self.record(0x20..=0x38, |kind, r| match kind {
            // TIdentifier, TypeFromPath, TypeApp
            0x2C => r.text(),
            0x2D => r.path(),
            0x2E => {
                r.ty()?;
                r.list(Records::ty)
            }
            // Borrowed, BorrowedMut, ImplType, DynType
            0x2F..=0x32 => r.ty(),
            // TupleType, FnType
            0x33 => r.list(Records::ty),
            0x34 => {
                r.list(Records::ty)?;
                r.ty()
            }
            // IntersectionType, TSynonym
            0x35 | 0x37 => {
                r.ty()?;
                r.ty()
            }
            // Array, TMetaData
            0x36 => {
                r.ty()?;
                r.option(Records::text)
            }
            0x38 => {
                r.ty()?;
                r.kept()?;
                r.kept()
            }
            _ => Ok(()),
        })
    }

    fn expr(&mut self) -> Reading {
        self.record(0x40..=0x5E, |kind, r| match kind {
            // RawExpr, Identifier, LiteralInt
            0x40 | 0x42 | 0x4C => r.text(),
            // ExprFromType
            0x41 => r.ty(),
            // Match, StructBuild
            0x43 => {
                r.expr()?;
                r.list(Records::match_case)
            }
            0x46 => {
                r.expr()?;
                r.list(Records::assign_identifier)
            }
            // StmtExpr, SelectIndex
            0x44 | 0x5B => {
                r.expr()?;
                r.expr()
            }
            // Block, Tuple
            0x45 => r.expr(),
            0x47 => r.list(Records::expr),
            // UnaryOp, BinaryOp
            0x48 => {
                r.text()?;
                r.expr()?;
                r.kept()
            }
            0x49 => {
                r.text()?;
                r.expr()?;
                r.expr()?;
                r.kept()
            }
            // TypeAscription, TraitCast
            0x4A => {
                r.expr()?;
                r.ty()
            }
            0x4B => {
                r.ty()?;
                r.ty()
            }
            // LiteralBool, LiteralString
            0x4D => r.kept(),
            0x4E => {
                r.text()?;
                r.kept()?;
                r.kept()
            }
            // DeclareVar, Assign
            0x4F => {
                r.kept()?;
                r.text()?;
                r.option(Records::ty)?;
                r.option(Records::expr)
            }
            0x50 => {
                r.kept()?;
                r.expr()
            }
            // IfExpr, Loop, For, Labelled
            0x51 => {
                r.expr()?;
                r.expr()?;
                r.expr()
            }
            0x52 => {
                r.option(Records::expr)?;
                r.expr()
            }
            0x53 => {
                r.text()?;
                r.expr()?;
                r.expr()
            }
            0x54 => {
                r.text()?;
                r.expr()
            }
            // Break, Continue, Return
            0x55 | 0x56 => r.option(Records::text),
            0x57 => r.option(Records::expr),
            // CallType, Call
            0x58 => {
                r.expr()?;
                r.list(Records::ty)
            }
            0x59 => {
                r.expr()?;
                r.list(Records::expr)
            }
            // Select, FunctionSelect
            0x5A | 0x5D => {
                r.expr()?;
                r.text()
            }
            // ExprFromPath
            0x5C => r.path(),
            // Lambda, 005E
            _ => {
                r.list(Records::formal)?;
                r.option(Records::ty)?;
                r.expr()
            }
        })
    }

    fn match_case(&mut self) -> Reading {
        self.one(0x81, |r| {
            r.kept()?;
            r.expr()
        })
    }

    fn assign_identifier(&mut self) -> Reading {
        self.one(0x82, |r| {
            r.text()?;
            r.expr()
        })
    }

    fn formal(&mut self) -> Reading {
        self.one(0x7E, |r| {
            r.text()?;
            r.ty()
        })
    }

    fn module(&mut self) -> Reading {
        self.record(0x60..=0x61, |kind, r| match kind {
            0x60 => {
                r.documented()?;
                r.text()?;
                r.list(Records::declaration)
            }
            _ => r.text(),
        })
    }

    /// The doc string and the attributes with which most declarations begin.
    fn documented(&mut self) -> Reading {
        self.text()?;
        self.kept()
    }

    fn declaration(&mut self) -> Reading {
        self.record(0x62..=0x6A, |kind, r| match kind {
            0x62 => r.module(),
            0x63 => r.structure(),
            0x64 => r.type_synonym(),
            0x65 => r.constant(),
            0x66 => r.enumeration(),
            0x67 => r.implementation(),
            0x68 => r.trait_(),
            0x69 => r.top_fn(),
            _ => r.use_(),
        })
    }

    fn structure(&mut self) -> Reading {
        self.one(0x70, |r| {
            r.documented()?;
            r.text()?;
            r.type_params()?;
            r.fields()
        })
    }

    fn type_synonym(&mut self) -> Reading {
        self.one(0x71, |r| {
            r.documented()?;
            r.text()?;
            r.type_params()?;
            r.ty()
        })
    }

    fn constant(&mut self) -> Reading {
        self.one(0x72, |r| {
            r.documented()?;
            r.text()?;
            r.ty()?;
            r.expr()
        })
    }

    fn enumeration(&mut self) -> Reading {
        self.one(0x73, |r| {
            r.documented()?;
            r.text()?;
            r.type_params()?;
            r.list(Records::enum_case)
        })
    }

    fn enum_case(&mut self) -> Reading {
        self.one(0x74, |r| {
            r.text()?;
            r.text()?;
            r.fields()
        })
    }

    fn fields(&mut self) -> Reading {
        self.record(0x75..=0x76, |kind, r| match kind {
            0x75 => r.list(Records::field),
            _ => r.list(Records::nameless_field),
        })
    }

    fn field(&mut self) -> Reading {
        self.one(0x77, |r| {
            r.kept()?;
            r.formal()
        })
    }

    fn nameless_field(&mut self) -> Reading {
        self.one(0x78, |r| {
            r.kept()?;
            r.ty()
        })
    }

    fn implementation(&mut self) -> Reading {
        self.record(0x79..=0x7A, |kind, r| {
            r.type_params()?;
            r.ty()?;
            if kind == 0x79 {
                r.ty()?;
            }
            r.members()
        })
    }

    fn trait_(&mut self) -> Reading {
        self.one(0x7B, |r| {
            r.documented()?;
            r.type_params()?;
            r.ty()?;
            r.list(Records::ty)?;
            r.members()
        })
    }

    fn top_fn(&mut self) -> Reading {
        self.one(0x7C, |r| {
            r.documented()?;
            r.kept()?;
            r.function()
        })
    }

    fn function(&mut self) -> Reading {
        self.one(0x7D, |r| {
            r.text()?;
            r.type_params()?;
            r.list(Records::formal)?;
            r.option(Records::ty)?;
            r.option(Records::expr)
        })
    }

    fn type_params(&mut self) -> Reading {
        self.list(|r| {
            r.one(0x7F, |r| {
                r.text()?;
                r.list(Records::ty)
            })
        })
    }

    fn use_(&mut self) -> Reading {
        self.one(0x80, |r| {
            r.kept()?;
            r.path()
        })
    }

    fn members(&mut self) -> Reading {
        self.list(|r| {
            r.record(0x83..=0x86, |kind, r| match kind {
                // RawImplMember, FnDecl, TypeDeclMember, ImplMemberMacro
                0x83 => r.text(),
                0x84 => {
                    r.documented()?;
                    r.kept()?;
                    r.function()
                }
                0x85 => {
                    r.text()?;
                    r.ty()
                }
                _ => r.expr(),
            })
        })
    }
}
