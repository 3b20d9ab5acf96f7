//! The page: before and after side by side, in one file that needs nothing else and runs nothing.

use crate::pair::{Pair, Refused, Row};
use crate::show::{Line, Tint};
use crate::view::{count, mark};

const STYLE: &str = include_str!("page.css");

/// What is said of a line that is too wide for the browser.
const DOTS: &str = "A row with dots before it goes on from the one above.";

pub fn pair(file: &str, pair: &Pair, bytes: usize) -> String {
    let mut rows = String::new();
    for row in &pair.rows {
        let Row { before, after } = row;
        let class = match (before, after) {
            (None, _) => "row put",
            (Some(before), Some(after)) if changed(before) || changed(after) => "row changed",
            _ => "row same",
        };
        let cell = |line: &Option<Line>| line.as_ref().map_or(String::new(), line_of);
        let (before, after) = (cell(before), cell(after));
        rows.push_str(&format!(
            "<div class=\"{class}\"><div class=\"before\">{before}</div><div class=\"after\">{after}</div></div>\n"
        ));
    }
    let summary = format!("{} shortened, {} put in", count(pair.names, "name"), count(pair.uses, "use"));
    let heads = format!(
        "<div class=\"row heads\"><div class=\"before\">before, {}</div><div class=\"after\">after, {}</div></div>\n",
        count(bytes, "byte"),
        count(pair.output.len(), "byte"),
    );
    let legend = "<span class=\"long\">::a::X</span> is shortened to <span class=\"short\">X</span>, \
        which shows its full path when pointed at or reached by the Tab key; <span class=\"use\">pub use ::a::X;</span> was put in.";
    page(file, &format!("<p>{summary}. {legend} {DOTS}</p>\n<main>\n{heads}{rows}</main>\n"))
}

pub fn refused(file: &str, refused: &Refused) -> String {
    let mut lines = String::new();
    for (i, line) in refused.shown.lines.iter().enumerate() {
        let (text, indent) = (line.text(), indent(line));
        let mark = format!("<span class=\"refused\">&#9650; {}</span>", escaped(&mark(refused.refusal)));
        let code = code(&text);
        lines.push_str(&match refused.shown.mark {
            Some((marked, column)) if marked == i && column < text.len() => {
                format!(
                    "<div class=\"line\"{indent}>{code}</div>\n<div class=\"line\"{indent}>{mark}</div>\n"
                )
            }
            Some((marked, _)) if marked == i => format!("<div class=\"line\"{indent}>{code}{mark}</div>\n"),
            _ => format!("<div class=\"line\"{indent}>{code}</div>\n"),
        });
    }
    let why = escaped(&refused.refusal.to_string());
    let why = format!("<p class=\"why\" role=\"alert\">{why}</p>\n<p>{DOTS}</p>\n");
    page(file, &format!("{why}<main class=\"alone\">\n{lines}</main>\n"))
}

fn page(file: &str, body: &str) -> String {
    let file = escaped(file);
    format!(
        "<!DOCTYPE html>\n<html lang=\"en\">\n<head>\n<meta charset=\"utf-8\">\n\
         <meta http-equiv=\"Content-Security-Policy\" content=\"default-src 'none'; style-src 'unsafe-inline'\">\n\
         <meta name=\"viewport\" content=\"width=device-width, initial-scale=1\">\n\
         <title>{file}</title>\n<style>\n{STYLE}</style>\n</head>\n<body>\n<h1>{file}</h1>\n{body}</body>\n</html>\n"
    )
}

fn changed(line: &Line) -> bool {
    line.spans.iter().any(|span| span.tint.is_some())
}

fn indent(line: &Line) -> String {
    match line.indent {
        0 => String::new(),
        n => format!(" style=\"--in:{n}\""),
    }
}

fn line_of(line: &Line) -> String {
    let spans: String = line
        .spans
        .iter()
        .map(|span| {
            let text = code(&span.text);
            match &span.tint {
                None => text,
                Some(Tint::Long) => format!("<span class=\"long\">{text}</span>"),
                Some(Tint::Use) => format!("<span class=\"use\">{text}</span>"),
                Some(Tint::Short(path)) => format!(
                    "<span class=\"short\" tabindex=\"0\">{text}<span class=\"path\" role=\"tooltip\">{}</span></span>",
                    code(path)
                ),
            }
        })
        .collect();
    format!("<div class=\"line\"{}>{spans}</div>", indent(line))
}

/// Code, which may be broken behind a call's parenthesis and not in an arrow.
fn code(text: &str) -> String {
    let mut out = String::with_capacity(text.len());
    let mut before = ' ';
    for (i, letter) in text.char_indices() {
        match letter {
            '-' if text[i..].starts_with("->") => out.push_str("<span class=\"arrow\">-"),
            '>' if before == '-' => out.push_str("&gt;</span>"),
            '(' if before.is_ascii_alphanumeric() => out.push_str("(<wbr>"),
            _ => escape(letter, &mut out),
        }
        before = letter;
    }
    out
}

fn escaped(text: &str) -> String {
    let mut out = String::with_capacity(text.len());
    text.chars().for_each(|letter| escape(letter, &mut out));
    out
}

/// What is shown is printable ASCII already.
fn escape(letter: char, out: &mut String) {
    match letter {
        '&' => out.push_str("&amp;"),
        '<' => out.push_str("&lt;"),
        '>' => out.push_str("&gt;"),
        '"' => out.push_str("&quot;"),
        '\'' => out.push_str("&#39;"),
        _ => out.push(letter),
    }
}
