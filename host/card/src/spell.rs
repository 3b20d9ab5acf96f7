//! How bytes are written so that they can be read on a terminal and read back.

use crate::kinds::WORDS;

/// Printable ASCII as it is, but for what has a meaning in quotes; all else as `\xNN`.
pub fn escaped(bytes: &[u8]) -> String {
    let mut out = String::with_capacity(bytes.len());
    for byte in bytes {
        match byte {
            b'"' | b'\\' => out.extend(['\\', *byte as char]),
            b' '..=b'~' => out.push(*byte as char),
            _ => out.push_str(&format!("\\x{byte:02X}")),
        }
    }
    out
}

pub fn quoted(bytes: &[u8]) -> String {
    format!("\"{}\"", escaped(bytes))
}

pub fn starts_name(byte: u8) -> bool {
    byte.is_ascii_alphabetic() || byte == b'_'
}

pub fn in_name(byte: u8) -> bool {
    byte.is_ascii_alphanumeric() || byte == b'_'
}

/// How many bytes at the start are a name that may stand bare: `r#` or nothing, a word, and `!` or nothing. 0 where there is none,
/// or where the name is a word of the notation.
pub fn bare_name(bytes: &[u8]) -> usize {
    let raw = if bytes.starts_with(b"r#") { 2 } else { 0 };
    let word = bytes[raw..].iter().take_while(|byte| in_name(**byte)).count();
    if word == 0 || !starts_name(bytes[raw]) {
        return 0;
    }
    let end = raw + word;
    if has_mark(&bytes[end..]) {
        return end + 1;
    }
    if raw == 0 && is_word(&bytes[..end]) {
        return 0;
    }
    end
}

/// Whether what follows a name is its mark, as that of a macro: `a!=b` is a comparison.
pub fn has_mark(bytes: &[u8]) -> bool {
    bytes.first() == Some(&b'!') && bytes.get(1) != Some(&b'=')
}

/// Whether it is a word of the notation.
pub fn is_word(bytes: &[u8]) -> bool {
    WORDS.iter().any(|word| word.as_bytes() == bytes)
}

/// How many bytes at the start are a number that may stand bare.
pub fn bare_number(bytes: &[u8]) -> usize {
    match bytes.first() {
        Some(b'0'..=b'9') => bytes.iter().take_while(|byte| in_name(**byte)).count(),
        _ => 0,
    }
}

pub const UNARY: &[&str] = &["!", "-", "*", "&mut", "&"];
/// One that another starts with comes behind it.
pub const BINARY: &[&str] = &[
    "<<=", ">>=", "..=", "&&", "||", "==", "!=", "<=", ">=", "<<", ">>", "+=", "-=", "*=", "/=", "%=", "&=",
    "|=", "^=", "..", "+", "-", "*", "/", "%", "<", ">", "&", "|", "^", "=",
];

pub fn name(bytes: &[u8]) -> String {
    match bytes.len() {
        0 => quoted(bytes),
        length if bare_name(bytes) == length => escaped(bytes),
        _ => quoted(bytes),
    }
}

pub fn size(bytes: &[u8]) -> String {
    match bytes.len() {
        0 => quoted(bytes),
        length if bare_number(bytes) == length => escaped(bytes),
        _ => name(bytes),
    }
}

pub fn number(bytes: &[u8]) -> String {
    match bytes.len() {
        length if length > 0 && bare_number(bytes) == length => escaped(bytes),
        _ => format!("literal {}", quoted(bytes)),
    }
}

/// Bare where it is one of these, else in quotes behind `op`.
pub fn operator(bytes: &[u8], bare: &[&str]) -> String {
    match bare.iter().find(|operator| operator.as_bytes() == bytes) {
        Some(operator) => operator.to_string(),
        None => format!("op {}", quoted(bytes)),
    }
}

/// A Kept's bytes: in quotes where that can be read, else in hexadecimal.
pub fn kept(bytes: &[u8]) -> String {
    let readable = bytes.iter().all(|byte| (b' '..=b'~').contains(byte));
    if readable {
        return format!("#{}", quoted(bytes));
    }
    let digits: String = bytes.iter().map(|byte| format!("{byte:02X}")).collect();
    format!("#{digits}")
}

#[cfg(test)]
mod tests {
    use super::*;

    #[test]
    fn names() {
        for bare in ["x", "_", "rd!", "r#mod", "self", "Cue7", "new", "int!"] {
            assert_eq!(name(bare.as_bytes()), bare);
        }
        for (bytes, in_quotes) in [
            ("", "\"\""),
            ("mod", "\"mod\""),
            ("match", "\"match\""),
            ("Self", "\"Self\""),
            ("7", "\"7\""),
            ("a!!", "\"a!!\""),
            ("!", "\"!\""),
            ("a-b", "\"a-b\""),
            ("a\"\\", "\"a\\\"\\\\\""),
            ("\x1b[31m", "\"\\x1B[31m\""),
            ("\u{202e}", "\"\\xE2\\x80\\xAE\""),
        ] {
            assert_eq!(name(bytes.as_bytes()), in_quotes);
        }
    }

    #[test]
    fn keeping() {
        assert_eq!(kept(b""), "#\"\"");
        assert_eq!(kept(b"\x01"), "#01");
        assert_eq!(kept(b"Some(x)"), "#\"Some(x)\"");
        assert_eq!(kept(b"a\n"), "#610A");
    }
}
