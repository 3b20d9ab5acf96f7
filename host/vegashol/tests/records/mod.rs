//! Records of cards, written by hand.
#![allow(dead_code)]
use vegashol::CRATE;

pub fn record(kind: u8, content: &[&[u8]]) -> Vec<u8> {
    let content = content.concat();
    let length = (content.len() as u32 + 2).to_le_bytes();
    [&length[..], &[kind, 0], &content].concat()
}

pub fn text(name: &str) -> Vec<u8> {
    record(0x01, &[name.as_bytes()])
}

pub fn list(records: &[Vec<u8>]) -> Vec<u8> {
    record(0x02, &[&records.concat()])
}

pub fn select(base: &[u8], name: &str) -> Vec<u8> {
    record(0x13, &[base, &text(name)])
}

pub fn extern_module(name: &str) -> Vec<u8> {
    record(0x61, &[&text(name)])
}

pub fn module(name: &str, declarations: &[Vec<u8>]) -> Vec<u8> {
    record(0x60, &[&text(""), &record(0x03, &[]), &text(name), &list(declarations)])
}

pub fn nested(module: Vec<u8>) -> Vec<u8> {
    record(0x62, &[&module])
}

pub fn constant(name: &str, tpe: Vec<u8>, value: Vec<u8>) -> Vec<u8> {
    record(0x65, &[&record(0x72, &[&text(""), &record(0x03, &[]), &text(name), &tpe, &value])])
}

/// `::name`
pub fn global(name: &str) -> Vec<u8> {
    select(&record(0x10, &[]), name)
}

/// `mod m { mod b { const k: crate::m::b::X = ::a::rd!; } }`: the operations answer differently.
pub fn card() -> Vec<u8> {
    let tpe = record(0x2D, &[&select(&select(&select(CRATE, "m"), "b"), "X")]);
    let value = record(0x5C, &[&select(&global("a"), "rd!")]);
    module("m", &[nested(module("b", &[constant("k", tpe, value)]))])
}
