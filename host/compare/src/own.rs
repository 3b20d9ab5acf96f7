//! Cards made for what the vectors leave out.
use crate::cards::*;

pub struct Case {
    /// What it is for.
    pub sort: &'static str,
    pub root: Vec<u8>,
    pub card: Vec<u8>,
    pub words: usize,
}

/// Each kind of type, a path of its own at each place of it.
fn every_type() -> Vec<Bytes> {
    let mut all: Vec<Bytes> = (0x20..=0x2B).map(|kind| record(kind, &[])).collect();
    all.push(identifier_type("t2c"));
    all.push(ty("::t::t2d"));
    all.push(record(0x2E, &[ty("::t::t2e0"), tys(["::t::t2e1", "::t::t2e2"])]));
    for kind in 0x2F..=0x32 {
        all.push(record(kind, &[ty(&format!("::t::t{kind:x}"))]));
    }
    all.push(record(0x33, &[tys(["::t::t33a", "::t::t33b"])]));
    all.push(record(0x34, &[tys(["::t::t34a", "::t::t34b"]), ty("::t::t34c")]));
    all.push(record(0x35, &[ty("::t::t35a"), ty("::t::t35b")]));
    all.push(record(0x36, &[ty("::t::t36a"), none()]));
    all.push(record(0x36, &[ty("::t::t36b"), list(&[text("::t::t36c")])]));
    all.push(record(0x37, &[ty("::t::t37display"), ty("::t::t37base")]));
    all.push(record(0x38, &[ty("::t::t38"), kept(&[0]), kept(&path("::t::kept"))]));
    all
}

/// Each kind of expression, a path of its own at each place of it.
fn every_value() -> Vec<Bytes> {
    let v = |name: &str| ex(&format!("::v::{name}"));
    let t = |name: &str| ty(&format!("::t::{name}"));
    let some = |it: Bytes| list(&[it]);
    let case = |name: &str| record(0x81, &[kept(&path("::v::kept")), v(name)]);
    let assign = |name: &str| record(0x82, &[text("::v::field"), v(name)]);
    vec![
        record(0x40, &[text("::v::v40")]),
        record(0x41, &[t("v41")]),
        record(0x42, &[text("v42")]),
        record(0x43, &[v("v43a"), list(&[case("v43b"), case("v43c")])]),
        record(0x44, &[v("v44a"), v("v44b")]),
        record(0x45, &[v("v45")]),
        record(0x46, &[v("v46a"), list(&[assign("v46b"), assign("v46c")])]),
        record(0x47, &[exs(["::v::v47a", "::v::v47b"])]),
        record(0x48, &[text("!"), v("v48"), kept(&[])]),
        record(0x49, &[text("+"), v("v49a"), v("v49b"), kept(&[])]),
        record(0x4A, &[v("v4aa"), t("v4ab")]),
        record(0x4B, &[t("v4ba"), t("v4bb")]),
        record(0x4C, &[text("::v::v4c")]),
        record(0x4D, &[kept(&[1])]),
        record(0x4E, &[text("::v::v4e"), kept(&[0]), kept(&[0])]),
        record(0x4F, &[kept(&[0]), text("x"), some(t("v4fa")), some(v("v4fb"))]),
        record(0x4F, &[kept(&[0]), text("x"), none(), some(v("v4fc"))]),
        record(0x4F, &[kept(&[0]), text("x"), some(t("v4fd")), none()]),
        record(0x50, &[kept(&path("::v::left")), v("v50")]),
        record(0x51, &[v("v51a"), v("v51b"), v("v51c")]),
        record(0x52, &[some(v("v52a")), v("v52b")]),
        record(0x52, &[none(), v("v52c")]),
        record(0x53, &[text("::v::i"), v("v53a"), v("v53b")]),
        record(0x54, &[text("::v::l"), v("v54")]),
        record(0x55, &[some(text("::v::l"))]),
        record(0x56, &[none()]),
        record(0x57, &[some(v("v57"))]),
        record(0x57, &[none()]),
        record(0x58, &[v("v58a"), tys(["::t::v58b", "::t::v58c"])]),
        record(0x59, &[v("v59a"), exs(["::v::v59b", "::v::v59c"])]),
        record(0x5A, &[v("v5a"), text("::v::f")]),
        record(0x5B, &[v("v5ba"), v("v5bb")]),
        v("v5c"),
        record(0x5D, &[v("v5d"), text("::v::f")]),
        record(0x5E, &[list(&[formal("a", t("v5ea")), formal("b", t("v5eb"))]), some(t("v5ec")), v("v5ed")]),
        record(0x5E, &[none(), none(), v("v5ee")]),
    ]
}

/// Each kind of declaration, a path of its own at each place of it.
fn every_declaration() -> Vec<Bytes> {
    let params = |a: &str, b: &str| {
        let of = |x: &str| ["::p::".to_string() + x + "1", "::p::".to_string() + x + "2"];
        let constraints = |x: &str| tys(of(x).iter().map(String::as_str));
        [param("T", constraints(a)), param("U", constraints(b))]
    };
    let fun = |name: &str, p: &str| {
        function(
            name,
            &params(&format!("{p}a"), &format!("{p}b")),
            &[formal("x", ty(&format!("::p::{p}c"))), formal("y", ty(&format!("::p::{p}d")))],
            list(&[ty(&format!("::p::{p}e"))]),
            list(&[ex(&format!("::p::{p}f!"))]),
        )
    };
    let bare = || function("bare", &[], &[], none(), none());
    let members = |p: &str| {
        [
            record(0x83, &[text("::p::raw")]),
            fn_member(fun("method", &format!("{p}fn"))),
            fn_member(bare()),
            type_member("Item", ty(&format!("::p::{p}type"))),
            macro_member(ex(&format!("::p::{p}macro!"))),
        ]
    };
    vec![
        nested(module("inner", &[constant("deep", ty("::p::deep"), raw())])),
        nested(extern_module("outside")),
        structure("S", &params("sa", "sb"), named_fields(&[ty("::p::field")])),
        synonym("Y", &params("ya", "yb"), ty("::p::y")),
        constant("C", ty("::p::ct"), ex("::p::cv")),
        enumeration(
            "E",
            &params("ea", "eb"),
            &[
                named_fields(&[ty("::p::en1"), ty("::p::en2")]),
                nameless_fields(&[ty("::p::en3"), ty("::p::en4")]),
            ],
        ),
        impl_for(&params("fa", "fb"), ty("::p::ft"), ty("::p::ff"), &members("f")),
        implementation(&params("ia", "ib"), ty("::p::it"), &members("i")),
        trait_(
            &params("ta", "tb"),
            record(0x2E, &[identifier_type("Tr"), tys(["::p::tt"])]),
            tys(["::p::tp1", "::p::tp2"]),
            &members("t"),
        ),
        top_fn(fun("top", "u")),
        use_decl("::p::used"),
    ]
}

fn two(i: usize) -> [u8; 2] {
    [b'a' + (i / 26) as u8, b'a' + (i % 26) as u8]
}

fn extern_modules(count: usize) -> Vec<Bytes> {
    (0..count).map(|i| nested(extern_module(two(i)))).collect()
}

/// Two pairs for each name: its own, and that of a path under Global.
fn names_twice(count: usize) -> Vec<Bytes> {
    let global = |i| record(0x2D, &[select(path(""), two(i))]);
    let mut body = extern_modules(count);
    body.push(only_types(&(0..count).map(global).collect::<Vec<_>>()));
    body
}

/// One name under so many bases.
fn bases_of_one_name(count: usize) -> Bytes {
    let under = |i| record(0x2D, &[select(select(path(""), two(i)), "N")]);
    only_types(&(0..count).map(under).collect::<Vec<_>>())
}

/// A module of so many bytes, its body behind a raw member.
fn padded(body: &[Bytes], size: usize) -> Bytes {
    let raw = |bytes: usize| record(0x83, &[text(" ".repeat(bytes))]);
    let behind = |bytes| [&[implementation(&[], bool_type(), &[raw(bytes)])], body].concat();
    let least = module("m", &behind(0)).len();
    module("m", &behind(size - least))
}

/// Paths and declarations drawn from few names and bases.
fn drawn(mut seed: u32, count: usize) -> Vec<Bytes> {
    const BASES: [&str; 8] =
        ["::dafny_runtime", "crate::m", "::a", "::b", "crate::a", "Self::a", "::dafny_runtime::a", "Self"];
    let mut draw = |below: usize| {
        seed = seed.wrapping_mul(1664525).wrapping_add(1013904223);
        (seed >> 8) as usize % below
    };
    (0..count)
        .map(|_| {
            let name = format!("n{}", draw(count / 4));
            let long = format!("{}::{name}", BASES[draw(8)]);
            match draw(6) {
                0 => nested(extern_module(name)),
                1 => types(&[&long]),
                2 => implementation(&[], record(0x2F, &[ty(&long)]), &[]),
                3 => values(&[&long]),
                4 => values(&[&(long + "!")]),
                _ => constant(name, ty(&long), ex(&(long.clone() + "c"))),
            }
        })
        .collect()
}

/// One path type inside so many Borrowed.
fn borrowed(times: usize) -> Bytes {
    (0..times).fold(ty("::a::X"), |t, _| record(0x2F, &[t]))
}

pub fn cases() -> Vec<Case> {
    let mut cases = Vec::new();
    let mut under = |sort, root: &str, card| cases.push(Case { sort, root: path(root), card, words: 2048 });
    let mut put = |body: &[Bytes], sort| under(sort, "crate", module("m", body));

    let mut sort = "every kind, a path at each place";
    put(&[only_types(&every_type())], sort);
    put(&[only_values(&every_value())], sort);
    put(&every_declaration(), sort);
    for declaration in every_declaration() {
        put(&[declaration], sort);
    }

    sort = "nested modules: their names only";
    put(&[nested(module("b", &[]))], sort);
    put(&[nested(module("b", &[types(&["::a::X"]), values(&["::a::x!"])]))], sort);
    put(&[nested(module("b", &[nested(module("c", &[constant("k", ty("::a::X"), raw())]))]))], sort);
    put(&[types(&["::a::b", "crate::m::b::X"]), nested(module("b", &[])), nested(extern_module("b"))], sort);
    put(&[nested(module("m", &[])), types(&["crate::m::m::m", "crate::m::m"])], sort);
    put(&[nested(module("b", &names_twice(20))), types(&["::aa"])], sort);

    sort = "Self, Crate and Global as paths and bases";
    put(&[types(&["Self::X"])], sort);
    put(&[values(&["Self::x", "Self::x!", "Self::!!"])], sort);
    put(&[types(&["Self", "crate", ""]), values(&["Self", "crate", ""])], sort);
    put(&[types(&["Self::a::X", "Self::a::b::X", "::Self::X", "crate::Self::X"])], sort);
    put(&[types(&["::X", "crate::X", "Self::X"]), values(&["::y", "crate::y", "Self::y"])], sort);
    put(&[constant("X", ty("Self::X"), ex("Self::X"))], sort);

    sort = "the mark, of expressions and of types";
    put(&[values(&["::a::rd!"])], sort);
    put(&[types(&["::a::rd!"])], sort);
    put(&[types(&["::a::rd!"]), values(&["::a::rd!"])], sort);
    put(&[values(&["::a::rd!", "::a::rd", "::b::rd!"])], sort);
    put(&[values(&["::a::rd!!", "::a::rd!"]), types(&["::a::rd!!"])], sort);
    put(&[values(&["::a!::rd", "::a!::rd!", "::a::!rd", "::a::r!d"])], sort);
    put(&[constant("k!", bool_type(), ex("::a::k!")), values(&["::a::k!!"])], sort);
    put(&[trait_(&[], identifier_type("T!"), none(), &[]), values(&["::a::T!"])], sort);

    sort = "empty names and names of marks only";
    put(&[values(&["::a::!!"])], sort);
    put(&[types(&["::a::!!"])], sort);
    put(&[values(&["::a::!!", "::a::!!!"]), types(&["::a::!!", "::a::!!!"])], sort);
    put(&[values(&["::!!"]), types(&["crate::m::!!", "::b::!!"])], sort);
    put(&[constant("", ty("::a::!!"), ex("::b::!!"))], sort);
    put(&[constant("!", ty("::a::!!"), ex("crate::m::!!"))], sort);
    put(&[constant("!!", ty("crate::m::!!"), ex("crate::m::!!"))], sort);
    put(&[nested(module("", &[])), nested(extern_module("")), types(&["crate::m::!!"])], sort);
    put(&[nested(module("!", &[])), nested(extern_module("!!")), values(&["::a::!!", "::a::!!!"])], sort);
    put(&[trait_(&[], identifier_type("!"), none(), &[]), values(&["::a::!!", "crate::m::!!"])], sort);
    put(&[top_fn(function("", &[], &[], none(), none())), values(&["::a::!!"])], sort);
    put(&[types(&["::!!::X", "::!!::!!::X", "::X"])], sort);
    put(&[identifier_type(""), identifier_type("!")].map(|of| only_types(&[of])), sort);

    sort = "paths without a name";
    let params = [param("T", tys(["::a::X", "::a::!"]))];
    put(&[implementation(&params, bool_type(), &[])], sort);
    put(&[trait_(&[], identifier_type("T"), tys(["::a::T", "::b::"]), &[])], sort);
    put(&[enumeration("E", &[], &[nameless_fields(&[ty("::!::X")])])], sort);
    put(&[top_fn(function("f", &[], &[], list(&[ty("::a::X")]), list(&[ex("::!")])))], sort);
    put(&[only_types(&[record(0x34, &[tys(["::a::X"]), ty("::a::")])])], sort);
    put(&[only_values(&[record(0x4B, &[ty("::"), ty("::")])])], sort);
    put(&[nested(module("b", &[nested(module("c", &[values(&["Self::x", "Self::!"])]))]))], sort);
    put(&[types(&["::a::X"]), use_decl("::a::X"), use_decl("crate::m::")], sort);
    put(&[types(&["::::X", "::::::X", "::X"])], sort);
    put(&[types(&["::a::b::c::d::e::!::f::g"])], sort);

    sort = "a struct's fields against an enum's";
    put(&[structure("S", &[], named_fields(&[ty("::a::X"), borrowed(3)]))], sort);
    put(&[structure("S", &[param("T", tys(["::a::X"]))], nameless_fields(&[ty("::b::X")]))], sort);
    put(&[structure("X", &[], nameless_fields(&[ty("::a::X")])), types(&["::a::X"])], sort);
    put(&[enumeration("E", &[], &[named_fields(&[ty("::a::X")]), nameless_fields(&[ty("::b::Y")])])], sort);
    put(&[enumeration("E", &[param("T", tys(["::a::E"]))], &[])], sort);

    sort = "type parameters of Impl against ImplFor's";
    let t = [param("T", tys(["::a::X"])), param("U", tys(["::a::Y", "::a::Z"]))];
    put(&[implementation(&t, bool_type(), &[])], sort);
    put(&[impl_for(&t, bool_type(), bool_type(), &[])], sort);
    put(&[impl_for(&t, ty("::b::X"), ty("::c::W"), &[type_member("V", ty("::d::V"))])], sort);
    put(&[implementation(&t, ty("::a::Z"), &[fn_member(function("f", &t, &[], none(), none()))])], sort);

    sort = "synonyms: the display only";
    let syn = |display, base| record(0x37, &[display, base]);
    put(&[only_types(&[syn(ty("::a::X"), ty("::b::Y"))])], sort);
    put(&[only_types(&[syn(syn(ty("::a::X"), ty("::b::Y")), syn(ty("::c::Z"), ty("::d::W")))])], sort);
    put(&[only_types(&[syn(record(0x38, &[ty("::a::X"), kept(&[]), kept(&[])]), ty("::b::X"))])], sort);
    put(&[only_values(&[record(0x41, &[syn(identifier_type("X"), ty("::b::Y"))])])], sort);
    put(&[synonym("X", &[], syn(ty("::a::X"), ty("::b::X")))], sort);

    sort = "uses of the card";
    put(&[use_decl("::a::X"), use_decl("crate::m::Y"), use_decl("Self")], sort);
    put(&[use_decl("::a::X"), types(&["::b::X"]), use_decl("::c::X")], sort);

    sort = "a trait's own name";
    let app = |of, arguments| record(0x2E, &[of, arguments]);
    let t = || identifier_type("T");
    put(&[trait_(&[], t(), none(), &[])], sort);
    put(&[trait_(&[], app(t(), none()), none(), &[])], sort);
    put(&[trait_(&[], app(t(), tys(["::a::T", "::a::A"])), tys(["::b::T"]), &[])], sort);
    put(&[trait_(&[], app(app(t(), none()), none()), none(), &[])], sort);
    put(&[trait_(&[], app(ty("::a::T"), none()), none(), &[])], sort);
    put(&[trait_(&[], ty("::a::T"), tys(["crate::m::T"]), &[])], sort);
    put(&[trait_(&[], syn(t(), t()), none(), &[])], sort);
    put(&[trait_(&[], app(syn(t(), t()), none()), none(), &[])], sort);
    put(&[trait_(&[], record(0x2F, &[t()]), none(), &[])], sort);
    put(&[trait_(&[], record(0x38, &[t(), kept(&[]), kept(&[])]), none(), &[])], sort);
    put(&[trait_(&[param("P", tys(["::a::P"]))], t(), tys(["::b::Q"]), &[macro_member(ex("::c::R"))])], sort);

    sort = "functions: a TopFn's name, not a member's";
    let fun = |name| {
        let x = formal("x", ty("::a::X"));
        function(name, &[param("T", tys(["::a::T"]))], &[x], list(&[ty("::a::R")]), list(&[ex("::a::b")]))
    };
    put(&[top_fn(fun("f"))], sort);
    put(&[implementation(&[], bool_type(), &[fn_member(fun("f"))])], sort);
    put(
        &[implementation(&[], bool_type(), &[type_member("f", bool_type()), record(0x83, &[text("f")])])],
        sort,
    );
    put(&[top_fn(fun("X")), types(&["crate::m::X", "crate::m::b"])], sort);

    sort = "a name with two and three bases";
    for bases in [
        &["::a", "::b"][..],
        &["::a", "crate::m"],
        &["crate::m", "::a"],
        &["::a", "::dafny_runtime"],
        &["::dafny_runtime", "::a"],
        &["::dafny_runtime", "crate::m"],
        &["crate::m", "::dafny_runtime"],
        &["::a", "::b", "::c"],
        &["::a", "::b", "crate::m"],
        &["::a", "::b", "::dafny_runtime"],
        &["::a", "::dafny_runtime", "crate::m"],
        &["::dafny_runtime", "crate::m", "::a"],
        &["crate::m", "::a", "::dafny_runtime", "::b"],
        &["::a", "crate::a", "Self::a"],
        &["::a", "Self"],
        &["::a", "::a", "::a"],
        &["::dafny_runtime::a", "::a::dafny_runtime"],
        &["crate::dafny_runtime", "Self::dafny_runtime"],
        &["::dafny_runtime", "::dafny_runtime::dafny_runtime"],
        &["::dafny_runtime", "::dafny_runtim", "::dafny_runtime2", "::Dafny_runtime"],
        &["crate::m", "crate::m::m", "crate", "::m"],
    ] {
        let long: Vec<String> = bases.iter().map(|base| format!("{base}::X")).collect();
        let long: Vec<&str> = long.iter().map(String::as_str).collect();
        put(&[types(&long), types(&["::z::Y"])], sort);
        put(&[values(&["::z::A"]), values(&long), types(&["crate::m::Y"])], sort);
    }

    sort = "own names with paths of the same name";
    put(&[constant("X", ty("::a::X"), ex("::b::X"))], sort);
    put(&[constant("X", ty("::dafny_runtime::X"), ex("crate::m::X"))], sort);
    put(&[types(&["::a::X"]), constant("X", bool_type(), raw()), constant("X", bool_type(), raw())], sort);
    put(
        &[nested(extern_module("X")), structure("X", &[], named_fields(&[])), synonym("X", &[], bool_type())],
        sort,
    );

    sort = "the order of names, pairs and uses";
    put(&[types(&["::z::Z", "::a::A", "::m::M", "::z::A", "::z::Z", "::b::B"])], sort);
    put(&[types(&["::a::X", "::a::Y", "::b::X", "::c::Z", "::c::Y", "::dafny_runtime::X"])], sort);
    put(&[values(&["::b::y!"]), types(&["::a::x"]), values(&["::b::x!", "::b::y"])], sort);

    sort = "names that are nearly the same";
    put(&[types(&["::a::X", "::a::x", "::a::XX", "::a::X ", "::a::r#X", "::aa::X", "::a::a::X"])], sort);
    put(&[types(&["::ab::c", "::a::bc", "::a::b::c", "::abc"])], sort);
    let odd = |name: &[u8]| record(0x2D, &[select(path("::a"), name)]);
    put(
        &[only_types(&[
            odd(&[0]),
            odd(&[0, 0]),
            odd(&[0xff]),
            odd(&[0xff, 0]),
            odd(&[0xc3, 0x28]),
            odd(b"!\0"),
        ])],
        sort,
    );
    put(&[only_types(&[odd(&path("::a")), odd(&path("::a::X")), odd(&text("X"))])], sort);
    put(&[only_types(&[odd(&[b'x'; 255]), odd(&[b'x'; 256]), odd(&[b'x'; 257]), odd(&[b'x'; 256])])], sort);
    let under_long = |last: u8| {
        let mut base = [b'x'; 300];
        base[299] = last;
        record(0x2D, &[select(select(path(""), base), "X")])
    };
    put(&[only_types(&[under_long(b'x'), under_long(b'y'), under_long(b'x')])], sort);

    sort = "the limit of 512 pairs";
    put(&extern_modules(512), sort);
    put(&extern_modules(513), sort);
    let mut body = names_twice(256);
    body.push(values(&["::aa!", "::ab", "crate::m::ac"]));
    let longest = padded(&body, 32768);
    body.push(nested(module("b", &[types(&["::a::X"])])));
    put(&body, sort);
    put(&[constant("N", bool_type(), raw()), bases_of_one_name(300)], sort);
    put(&[nested(module("b", &extern_modules(513)))], sort);

    sort = "many pairs, few names and bases";
    for (seed, count) in [(1, 40), (3, 80), (5, 120), (7, 240)] {
        put(&drawn(seed, count), sort);
    }

    sort = "cards with nothing to collect";
    put(&[], sort);
    put(&[only_types(&[]), only_values(&[raw()])], sort);
    under(sort, "crate", extern_module("a"));
    under(sort, "", extern_module(""));
    under(sort, "crate::a", extern_module("dafny_runtime"));

    under("512 pairs in 32,768 bytes", "crate", longest);

    sort = "other roots and prefixes";
    let body = |inside: &[&str]| [constant("k", bool_type(), raw()), types(inside)];
    let m = |inside: &[&str]| module("m", &body(inside));
    under(sort, "", m(&["::m::X", "::m", "::m::k", "crate::m::X"]));
    under(sort, "Self", m(&["Self::m::X", "Self::m", "Self::k", "crate::m::X"]));
    under(sort, "crate::a", m(&["crate::a::m::X", "crate::a::X", "crate::m::X"]));
    under(sort, "crate::", m(&["crate::!!::m::X", "crate::m::X"]));
    under(sort, "::!", extern_module("a"));
    under(sort, "crate::!!", m(&["crate::!!::m::X", "crate::!!::X", "crate::m::X"]));
    under(sort, "::a::b::c", m(&["::a::b::c::m::k", "::a::b::c::k"]));
    under(
        sort,
        "crate::a::a::a::a::a::a",
        m(&["crate::a::a::a::a::a::a::m::X", "crate::a::a::a::a::a::m::X"]),
    );
    under(sort, "crate::a::a::a::a::a::a::a", m(&["::X"]));
    under(sort, "crate", module("", &body(&["crate::X", "crate::k", "::a::k"])));
    under(sort, "crate", module("!", &body(&["crate::X", "::a::k", "::dafny_runtime::k"])));
    under(sort, "crate", module("!!", &body(&["crate::!!::X", "crate::X", "crate::!!::!!"])));
    under(sort, "crate", module("", &body(&["crate::::X", "crate::X"])));
    under(sort, "crate", module("Self", &body(&["crate::Self::X", "Self::X", "Self::Self"])));
    under(sort, &format!("::{}", "r".repeat(238)), m(&[&format!("::{}::m::X", "r".repeat(238))]));
    under(sort, &format!("::{}", "r".repeat(239)), m(&["::a::X"]));

    sort = "a prefix that is dafny_runtime";
    let d = |inside: &[&str]| module("dafny_runtime", &body(inside));
    under(sort, "", d(&["::dafny_runtime::X"]));
    under(sort, "", d(&["::a::X", "::dafny_runtime::X", "::a::k", "::dafny_runtime"]));
    under(sort, "", module("dafny_runtime", &[types(&["::dafny_runtime::X", "::a::X", "::b::X"])]));
    under(sort, "crate", d(&["::dafny_runtime::X", "crate::dafny_runtime::X", "::dafny_runtime::k"]));
    under(sort, "::dafny_runtime", m(&["::dafny_runtime::X", "::dafny_runtime::m::X", "::dafny_runtime::k"]));
    under(sort, "::dafny_runtime", d(&["::dafny_runtime::X", "::dafny_runtime::dafny_runtime::X"]));

    sort = "the limit of 48 deep";
    // The name in the path's base lies 8 deeper than so many Borrowed.
    for times in 39..=42 {
        under(sort, "crate", module("m", &[implementation(&[], borrowed(times), &[])]));
    }

    sort = "faults, and which comes first";
    let sound = module("m", &[types(&["::a::X"])]);
    let ends = |mut card: Bytes, more: &[u8]| {
        card.extend(more);
        card
    };
    under(sort, "crate", ends(sound.clone(), &[0]));
    under(sort, "crate", sound[..sound.len() - 1].to_vec());
    under(sort, "crate", Vec::new());
    under(sort, "crate", path("::a"));
    under(sort, "crate", module("m", &[record(0x6B, &[])]));
    under(sort, "crate", module("m", &[constant("k", ex("::a::X"), raw())]));
    under(sort, "crate", module("m", &[only_types(&[record(0x2D, &[select(path(""), "X"), text("")])])]));
    under(sort, "crate", module("m", &[types(&["::a::X"]), vec![2, 0, 0]]));
    under(
        sort,
        "crate",
        module(
            "m",
            &[implementation(&[], record(0x36, &[ty("::a::X"), list(&[text("1"), text("2")])]), &[])],
        ),
    );
    under(sort, "crate", ends(module("m", &extern_modules(513)), &[0]));
    let mut refused =
        |root: Bytes, card: &Bytes, words| cases.push(Case { sort, root, card: card.clone(), words });
    refused(path("crate"), &sound, 2047);
    refused(path("crate"), &sound, 0);
    refused(Vec::new(), &Vec::new(), 2047);
    refused(Vec::new(), &Vec::new(), 2048);
    refused(text("a"), &extern_module("a"), 2048);
    refused(ends(path("crate"), &[0]), &sound, 4096);
    refused(path("crate::a::a::a::a::a::a::a::a"), &sound, 4096);
    refused(path("crate"), &sound, 4096);
    cases
}

/// Cards to which the two operations answer differently.
pub fn differing() -> Vec<Case> {
    let mut cases = Vec::new();
    let mut under = |sort, root: &str, card| cases.push(Case { sort, root: path(root), card, words: 2048 });
    let mut put = |body: &[Bytes], sort| under(sort, "crate", module("m", body));
    let b = |body: &[Bytes]| nested(module("b", body));

    let mut sort = "a nested module's prefix, its name once or twice";
    put(&[b(&[types(&["crate::m::b::X"])])], sort);
    put(&[b(&[types(&["crate::m::b::b::X"])])], sort);
    put(&[b(&[types(&["crate::m::b::X", "crate::m::b::b::X"])])], sort);
    put(&[b(&[types(&["crate::m::b::b::X", "::a::X", "crate::m::b::X", "::dafny_runtime::X"])])], sort);
    put(&[b(&[types(&["crate::m::b::b::X", "::c::Y"])])], sort);
    put(&[b(&[types(&["crate::m::b::X", "::c::Y"])])], sort);
    put(&[b(&[values(&["crate::m::b::x!", "crate::m::b::b::y!", "crate::m::b::!!"])])], sort);
    put(
        &[b(&[
            structure("X", &[], named_fields(&[ty("crate::m::b::X"), ty("crate::m::b::b::X")])),
            constant("Y", ty("crate::m::b::Y"), ex("crate::m::b::b::Y")),
        ])],
        sort,
    );
    // The true path of one is what the other's doubled name makes.
    let each = || types(&["crate::m::b::b::X", "crate::m::b::X", "crate::m::b::b::b::b::X"]);
    put(&[b(&[each(), b(&[each()])])], sort);
    put(&[b(&[b(&[each()]), each()]), each()], sort);
    // Each prefix that three modules, one in the other, may have.
    let bases =
        ["crate::m::b::c", "crate::m::b::b::c::c", "crate::m::b::b::c", "crate::m::b::c::c", "crate::m::b"];
    let paths: Vec<String> = bases.iter().enumerate().map(|(i, base)| format!("{base}::N{i}")).collect();
    let paths: Vec<&str> = paths.iter().map(String::as_str).collect();
    let each = || types(&paths);
    put(&[b(&[nested(module("c", &[each()]))])], sort);
    put(&[each(), b(&[each(), nested(module("c", &[each()])), each()]), each()], sort);
    put(&[b(&[types(&["crate::m::c::X"])]), nested(module("c", &[types(&["crate::m::c::X"])]))], sort);
    put(&[nested(module("m", &[types(&["crate::m::X", "crate::m::m::X", "crate::m::m::m::X"])]))], sort);
    put(&[nested(module("!!", &[types(&["crate::m::!!::X", "crate::m::!!::!!::X"])]))], sort);
    // A path is the own name's pair under one prefix, and one pair too many under the other.
    for base in ["crate::m::b", "crate::m::b::b"] {
        let mut body = extern_modules(512);
        body.push(types(&[&format!("{base}::aa")]));
        put(&[b(&body)], sort);
    }

    sort = "a path type in a Fn, with types and expressions around it";
    let top = |formals: &[Bytes], result: &[Bytes], body: &[Bytes]| {
        top_fn(function("f", &[param("T", list(&[borrowed(2)]))], formals, list(result), list(body)))
    };
    let block = |times, of| (0..times).fold(of, |e, _| record(0x45, &[e]));
    let of_type = |of| record(0x41, &[of]);
    for times in [1, 2, 5, 36] {
        put(&[top(&[formal("x", borrowed(times)), formal("y", borrowed(0))], &[], &[])], sort);
        put(&[top(&[], &[borrowed(times)], &[])], sort);
        put(&[top(&[], &[], &[block(times - 1, of_type(ty("::a::X")))])], sort);
        put(&[top(&[], &[], &[block(times / 2, of_type(borrowed(times / 2)))])], sort);
    }
    put(&[top(&[], &[record(0x33, &[list(&every_type())])], &[])], sort);
    put(&[top(&[formal("x", record(0x33, &[list(&every_type())]))], &[], &[])], sort);
    put(&[top(&[], &[], &[record(0x47, &[list(&every_value())])])], sort);
    let own = |display, base| record(0x37, &[display, base]);
    put(&[top(&[], &[own(ty("::a::X"), ty("::a::X"))], &[])], sort);
    put(&[top(&[], &[own(identifier_type("X"), own(identifier_type("X"), ty("::a::X")))], &[])], sort);
    let member = || fn_member(function("f", &[], &[formal("x", borrowed(1))], none(), none()));
    put(&[implementation(&[], borrowed(1), &[member()])], sort);
    put(&[impl_for(&[], borrowed(1), borrowed(2), &[member()])], sort);
    put(&[trait_(&[], identifier_type("T"), list(&[borrowed(1)]), &[member()])], sort);
    put(&[b(&[top(&[], &[record(0x2F, &[ty("crate::m::b::X")])], &[])])], sort);

    sort = "a nested module's prefix under other roots";
    for root in ["", "Self", "crate::a", "::dafny_runtime", "crate::a::a::a::a::a::a"] {
        let once = types(&[&format!("{root}::m::b::X"), &format!("{root}::m::b::b::Y")]);
        under(sort, root, module("m", &[b(&[once])]));
    }
    cases
}
