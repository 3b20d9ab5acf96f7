//! A card's own text is bytes, and nothing of it is printed that is not printable ASCII.

mod common;

use card::make;
use common::{is_printable, run, text_of};

const ODD: &[&[u8]] = &[
    b"\x1b[2J",
    b"\"quotes\"",
    b"\\x41",
    b"<script>alert(1)</script>",
    b"\xe2\x80\xae\xe2\x81\xa6",
    b"\xe2\x80\x8bhidden",
    b"\xd0\xb0",
    b"new\nline",
    b"&lt;",
    b"' onfocus='x",
    b"\0\x07\x7f\x9b31m",
];

/// The name wherever a name, a text or kept bytes can stand, some of it shortened.
fn card_with(odd: &[u8]) -> Vec<u8> {
    let name = card::spell::quoted(odd);
    let text = format!(
        "doc {name} attr #{name} mod {name} {{ const {name}: ::a::{name} = {name}.{name}(str {name}, raw {name}); \
         pub fn {name}(x: ::a::{name}) {{ match ::b::{name} {{ #{name} => op {name} ::c::X }} }} }}"
    );
    make::make(text.as_bytes()).unwrap_or_else(|fault| panic!("{fault:?} in {text}"))
}

#[test]
fn odd_names_in_every_command() {
    for odd in ODD {
        let card = card_with(odd);
        for arguments in [
            &["show", "-"][..],
            &["show", "--bytes", "-"],
            &["shorten", "-"],
            &["shorten", "--color", "always", "-"],
            &["html", "-"],
        ] {
            let answer = run(arguments, &card);
            assert_eq!(answer.status, 0);
            is_printable(&answer.out, arguments.contains(&"always"));
        }
        let page = String::from_utf8(run(&["html", "-"], &card).out).expect("ASCII");
        assert!(!page.contains("<script") && !page.contains("' onfocus"), "{page}");
        assert!(page.contains(">pub use ::c::X;</span>"), "{page}");
        let refused = run(&["show", "-"], &card[..card.len() - 1]);
        is_printable(&refused.out, false);
    }
}

#[test]
fn odd_names_come_back() {
    for odd in ODD {
        let card = card_with(odd);
        assert!(make::make(text_of(&card).as_bytes()).expect("the text of a sound card") == card);
    }
}

#[test]
fn odd_names_in_messages() {
    for odd in ["a\x1b[31m", "\u{202e}", "new\nline", "\u{200b}"] {
        for arguments in [
            &["show", odd][..],
            &["make", odd],
            &["html", odd],
            &["shorten", odd, "--root", odd],
            &["shorten", odd, "--color", odd],
            &[odd],
            &["show", "x", odd],
            &["show", "--", odd],
            &["show", &format!("-{odd}")],
            &["make", "-", "-o", &format!("/nowhere/{odd}")],
        ] {
            let answer = run(arguments, b"extern mod a;");
            assert!(answer.status > 0);
            common::is_plain(&answer);
        }
    }
}

/// What stands in a text for `make` is shown in no other way.
#[test]
fn odd_texts() {
    for odd in ODD {
        let text = [b"mod m { ", *odd, b" }"].concat();
        let answer = run(&["make", "-"], &text);
        assert_eq!(answer.status, 1);
        common::is_plain(&answer);
    }
}
