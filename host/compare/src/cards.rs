//! Records of cards, made.

pub type Bytes = Vec<u8>;

/// The root crate.
pub const CRATE: [u8; 6] = [2, 0, 0, 0, 0x11, 0];

/// One of 1,600 names of two letters and signs, for long cards.
pub fn brief(i: usize) -> String {
    [i / 40, i % 40].iter().map(|&sign| char::from(b'A' + sign as u8)).collect()
}

pub fn record(kind: u16, fields: &[Bytes]) -> Bytes {
    let content = fields.concat();
    let length = 2 + content.len() as u32;
    [&length.to_le_bytes()[..], &kind.to_le_bytes(), &content].concat()
}

pub fn text(name: impl AsRef<[u8]>) -> Bytes {
    record(0x01, &[name.as_ref().to_vec()])
}

pub fn kept(bytes: &[u8]) -> Bytes {
    record(0x03, &[bytes.to_vec()])
}

pub fn list(items: &[Bytes]) -> Bytes {
    record(0x02, items)
}

pub fn select(base: Bytes, name: impl AsRef<[u8]>) -> Bytes {
    record(0x13, &[base, text(name)])
}

/// As it is spelled: ::a::X, crate::m::X, Self::X.
pub fn path(spelled: &str) -> Bytes {
    let mut names = spelled.split("::");
    let start = match names.next() {
        Some("crate") => record(0x11, &[]),
        Some("Self") => record(0x12, &[]),
        _ => record(0x10, &[]),
    };
    names.fold(start, select)
}

pub fn ty(spelled: &str) -> Bytes {
    record(0x2D, &[path(spelled)])
}

pub fn ex(spelled: &str) -> Bytes {
    record(0x5C, &[path(spelled)])
}

pub fn tys<'a>(spelled: impl IntoIterator<Item = &'a str>) -> Bytes {
    list(&spelled.into_iter().map(ty).collect::<Vec<_>>())
}

pub fn exs<'a>(spelled: impl IntoIterator<Item = &'a str>) -> Bytes {
    list(&spelled.into_iter().map(ex).collect::<Vec<_>>())
}

pub fn none() -> Bytes {
    list(&[])
}

pub fn bool_type() -> Bytes {
    record(0x2B, &[])
}

pub fn identifier_type(name: &str) -> Bytes {
    record(0x2C, &[text(name)])
}

pub fn raw() -> Bytes {
    record(0x40, &[text("::raw::R")])
}

pub fn param(name: &str, constraints: Bytes) -> Bytes {
    record(0x7F, &[text(name), constraints])
}

pub fn formal(name: &str, of: Bytes) -> Bytes {
    record(0x7E, &[text(name), of])
}

pub fn named_fields(types: &[Bytes]) -> Bytes {
    let field = |t: &Bytes| record(0x77, &[kept(&[1]), formal("f", t.clone())]);
    record(0x75, &[list(&types.iter().map(field).collect::<Vec<_>>())])
}

pub fn nameless_fields(types: &[Bytes]) -> Bytes {
    let field = |t: &Bytes| record(0x78, &[kept(&[1]), t.clone()]);
    record(0x76, &[list(&types.iter().map(field).collect::<Vec<_>>())])
}

pub fn module(name: impl AsRef<[u8]>, body: &[Bytes]) -> Bytes {
    record(0x60, &[text(""), kept(&[]), text(name), list(body)])
}

pub fn extern_module(name: impl AsRef<[u8]>) -> Bytes {
    record(0x61, &[text(name)])
}

pub fn nested(module: Bytes) -> Bytes {
    record(0x62, &[module])
}

pub fn structure(name: &str, params: &[Bytes], fields: Bytes) -> Bytes {
    let content = [text(""), kept(&[]), text(name), list(params), fields];
    record(0x63, &[record(0x70, &content)])
}

pub fn synonym(name: &str, params: &[Bytes], of: Bytes) -> Bytes {
    let content = [text(""), kept(&[]), text(name), list(params), of];
    record(0x64, &[record(0x71, &content)])
}

pub fn constant(name: impl AsRef<[u8]>, of: Bytes, value: Bytes) -> Bytes {
    let content = [text(""), kept(&[]), text(name), of, value];
    record(0x65, &[record(0x72, &content)])
}

pub fn enumeration(name: &str, params: &[Bytes], fields: &[Bytes]) -> Bytes {
    let case = |f: &Bytes| record(0x74, &[text(""), text("Case"), f.clone()]);
    let cases = list(&fields.iter().map(case).collect::<Vec<_>>());
    let content = [text(""), kept(&[]), text(name), list(params), cases];
    record(0x66, &[record(0x73, &content)])
}

pub fn impl_for(params: &[Bytes], of: Bytes, for_type: Bytes, members: &[Bytes]) -> Bytes {
    let content = [list(params), of, for_type, list(members)];
    record(0x67, &[record(0x79, &content)])
}

pub fn implementation(params: &[Bytes], of: Bytes, members: &[Bytes]) -> Bytes {
    record(0x67, &[record(0x7A, &[list(params), of, list(members)])])
}

pub fn trait_(params: &[Bytes], of: Bytes, parents: Bytes, members: &[Bytes]) -> Bytes {
    let content = [text(""), kept(&[]), list(params), of, parents, list(members)];
    record(0x68, &[record(0x7B, &content)])
}

pub fn function(name: &str, params: &[Bytes], formals: &[Bytes], result: Bytes, body: Bytes) -> Bytes {
    let content = [text(name), list(params), list(formals), result, body];
    record(0x7D, &content)
}

pub fn top_fn(function: Bytes) -> Bytes {
    let content = [text(""), kept(&[]), kept(&[1]), function];
    record(0x69, &[record(0x7C, &content)])
}

pub fn fn_member(function: Bytes) -> Bytes {
    record(0x84, &[text(""), kept(&[]), kept(&[]), function])
}

pub fn type_member(name: &str, of: Bytes) -> Bytes {
    record(0x85, &[text(name), of])
}

pub fn macro_member(expr: Bytes) -> Bytes {
    record(0x86, &[expr])
}

pub fn use_decl(spelled: &str) -> Bytes {
    record(0x6A, &[record(0x80, &[kept(&[1]), path(spelled)])])
}

/// Only types, only values, in this order.
pub fn only_types(types: &[Bytes]) -> Bytes {
    implementation(&[], record(0x33, &[list(types)]), &[])
}

pub fn only_values(values: &[Bytes]) -> Bytes {
    let members: Vec<Bytes> = values.iter().cloned().map(macro_member).collect();
    implementation(&[], bool_type(), &members)
}

pub fn types(spelled: &[&str]) -> Bytes {
    only_types(&spelled.iter().map(|s| ty(s)).collect::<Vec<_>>())
}

pub fn values(spelled: &[&str]) -> Bytes {
    only_values(&spelled.iter().map(|s| ex(s)).collect::<Vec<_>>())
}
