//! The header and `calls.rs` declare just what the proved library exports, by the text of all three; and the header's numbers are
//! those of the crate.
use std::{fs, path::Path};
use vegashol::{Mark, Reason};

fn text(file: &str) -> String {
    let file = Path::new(env!("CARGO_MANIFEST_DIR")).join(file);
    fs::read_to_string(&file).unwrap_or_else(|error| panic!("{}: {error}", file.display()))
}

/// With one space where it has white space, and none at the inner side of a bracket.
fn on_one_line(text: &str) -> String {
    let words: Vec<&str> = text.split_whitespace().collect();
    words.join(" ").replace("( ", "(").replace(", )", ")").replace(",)", ")")
}

/// What stands between each `start` and the next `end`.
fn between<'t>(text: &'t str, start: &str, end: &str) -> Vec<&'t str> {
    text.split(start).skip(1).map(|after| after.split(end).next().unwrap()).collect()
}

/// An exported function, as the library's source has it.
struct Exported<'t> {
    name: &'t str,
    /// Each with its type.
    parameters: Vec<(&'t str, &'t str)>,
}

impl<'t> Exported<'t> {
    fn of(signature: &'t str) -> Exported<'t> {
        let (name, parameters) = signature.split_once('(').unwrap();
        let parameters = parameters.strip_suffix(')').unwrap().split(", ");
        Exported { name, parameters: parameters.map(|p| p.split_once(": ").unwrap()).collect() }
    }
}

/// A parameter as C and as Rust declare it: a slice is a pointer and a length.
fn declared(name: &str, tpe: &str) -> (String, String) {
    let (c, rust, is_slice) = match tpe {
        "&[u8]" => ("const uint8_t", "*const u8", true),
        "&mut [u8]" => ("uint8_t", "*mut u8", true),
        "&mut [u32]" => ("uint32_t", "*mut u32", true),
        "&mut u32" => ("uint32_t", "*mut u32", false),
        other => panic!("a host has no type for {other}"),
    };
    let length = |declared: &str| if is_slice { declared.replace("NAME", name) } else { String::new() };
    (
        format!("{c} *{name}{}", length(", size_t NAME_length")),
        format!("{name}: {rust}{}", length(", NAME_length: usize")),
    )
}

#[test]
fn every_exported_call_is_declared_as_it_is() {
    let source = on_one_line(&text("../../crates/console/src/lib.rt"));
    let signatures = between(&source, "pub extern \"C\" fn ", " -> u64");
    let calls: Vec<Exported> = signatures.into_iter().map(Exported::of).collect();
    assert_eq!(calls.len(), 8);
    let (mut header, mut rust) = (Vec::new(), Vec::new());
    for Exported { name, parameters } in &calls {
        let (c, r): (Vec<_>, Vec<_>) = parameters.iter().map(|(name, tpe)| declared(name, tpe)).unzip();
        header.push(format!("{name}({})", c.join(", ")));
        rust.push(format!("{name}({})", r.join(", ")));
    }
    assert_eq!(between(&on_one_line(&text("../include/vegashol.h")), "uint64_t ", ";"), header);
    assert_eq!(between(&on_one_line(&text("src/calls.rs")), "pub fn ", " -> u64;"), rust);
}

/// Every number that the header defines, in its order.
#[test]
fn the_header_has_the_numbers_of_the_crate() {
    let header = text("../include/vegashol.h");
    let defined = header.lines().filter_map(|line| line.strip_prefix("#define VEGASHOL_"));
    let numbers = defined.filter_map(|rest| {
        let mut words = rest.split_whitespace();
        Some((words.next()?, words.next()?.parse().ok()?))
    });
    let due: [(&str, usize); 21] = [
        ("SHORT_WORK", Reason::ShortWork as usize),
        ("LONG_CARD", Reason::LongCard as usize),
        ("BAD_ROOT", Reason::BadRoot as usize),
        ("SHORT_RECORD", Reason::ShortRecord as usize),
        ("WRONG_KIND", Reason::WrongKind as usize),
        ("TOO_DEEP", Reason::TooDeep as usize),
        ("LEFT_OVER", Reason::LeftOver as usize),
        ("FULL_TABLE", Reason::FullTable as usize),
        ("NO_SPACE", Reason::NoSpace as usize),
        ("SHORT_LIST", Reason::ShortList as usize),
        ("NO_NAME", Reason::NoName as usize),
        ("MOST_CARD", vegashol::MOST_CARD),
        ("MOST_ROOT", vegashol::MOST_ROOT),
        ("MOST_TIMES", vegashol::MOST_TIMES),
        ("MOST_TIMES_STRAIGHT", vegashol::MOST_TIMES_STRAIGHT),
        ("LEAST_WORK", vegashol::LEAST_WORK),
        ("MOST_WORK", vegashol::MOST_WORK),
        ("CRATE_LENGTH", vegashol::CRATE.len()),
        ("TYPE", Mark::Type as usize),
        ("EXPR", Mark::Expr as usize),
        ("USE", Mark::Use as usize),
    ];
    assert_eq!(numbers.collect::<Vec<(&str, usize)>>(), due);
}
