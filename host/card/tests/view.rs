//! Before and after: level with each other, and tinted by the list of places.

mod common;

use card::make;
use card::pair::Shortening;
use card::show::{Line, Tint};
use common::{card_of_paths, run, sound_card, Draws};

const FINALE: &str = include_str!("../examples/finale.txt");

fn card(text: &str) -> Vec<u8> {
    make::make(text.as_bytes()).expect("a sound card's text")
}

fn shown(arguments: &[&str], text: &str) -> String {
    let answer = run(arguments, &card(text));
    assert_eq!((answer.status, answer.errors.as_str()), (0, ""));
    String::from_utf8(answer.out).expect("ASCII")
}

#[test]
fn in_two_columns() {
    let text = "mod m { impl ::B { type X = F<::B>; } const k: ::a::Long = ::a::rd!(1); }";
    let expected = "\
before, 280 bytes                      | after, 459 bytes
mod m {                                | mod m {
                                       +     pub use ::B;
                                       +     pub use ::a::Long;
                                       +     pub use ::a::rd;
    impl ~::B {                        |     impl ~B {
        type X = F<~::B>;              |         type X = F<~B>;
    }                                  |     }
    const k: ~::a::Long =              |     const k: ~Long = ~rd!(1);
        ~::a::rd!(1);                  :
}                                      | }
4 names shortened, 3 uses put in (~ a shortened name, + a use put in)
";
    assert_eq!(shown(&["shorten", "-"], text), expected);
    let tinted = shown(&["shorten", "-", "--color", "always"], text);
    assert!(tinted.contains("\x1b[36mpub use ::a::rd;\x1b[0m\n"), "{tinted}");
    assert!(tinted.contains("\x1b[33m::a::Long\x1b[0m ="), "{tinted}");
    assert!(tinted.contains("const k: \x1b[1;32mLong\x1b[0m = \x1b[1;32mrd!\x1b[0m(1);\n"), "{tinted}");
}

/// Blanks in a text move what follows them to another row, which is not taken for a line of the card.
#[test]
fn a_text_makes_no_line() {
    let doc = format!("Waits.{}pub fn off() {{ ~desk::off(7) }}{}", " ".repeat(70), " ".repeat(70));
    let text = format!("mod m {{ doc \"{doc}\" fn f() {{ x }} }}");
    let out = shown(&["shorten", "-"], &text);
    let lines: Vec<&str> = out.lines().filter(|row| row.as_bytes().get(39) == Some(&b'|')).collect();
    assert_eq!(lines.len(), 1 + shown(&["show", "-"], &text).lines().count(), "{out}");
    assert!(out.contains("off(7)") && lines.iter().all(|row| !row.contains("off(7)")), "{out}");
    // On the page it is all in one line, whose rows but the first have dots.
    let page = shown(&["html", "-"], &text);
    let has_doc = |row: &&str| seen(row).matches(&doc).count() == 2;
    let row = page.lines().find(has_doc).expect("before and after in one row");
    assert_eq!(row.matches("class=\"line\"").count(), 2);
    assert!(page.contains("\n.line::before {"), "{page}");
}

/// A synonym of the card's own is one on both sides, with the names that are shortened in it.
#[test]
fn own_synonyms() {
    let out =
        shown(&["shorten", "-"], "mod m { const k: (Y := F<::X>) = 1; const l: (::X := u8)<::X> = 1; }");
    let rows: Vec<&str> = out.lines().skip(3).collect();
    for (row, before, after) in [
        (rows[0], "const k: (Y := F<~::X>) = 1;", "const k: (Y := F<~X>) = 1;"),
        (rows[1], "const l: (~::X := u8)<~::X> = 1;", "const l: (~X := u8)<~X> = 1;"),
    ] {
        let (left, right) = row.split_once(" | ").expect("two columns");
        assert_eq!((left.trim(), right.trim()), (before, after));
    }
    assert!(out.contains("3 names shortened, 1 use put in"), "{out}");
}

#[test]
fn roots_and_straight() {
    let text = "mod m { mod b { const k: crate::m::b::X = raw \"\"; } }";
    assert!(shown(&["shorten", "-"], text).contains("+         pub use crate::m::b::X;\n"));
    assert!(!shown(&["shorten", "-", "--straight"], text).contains("pub use"));
    let out = shown(&["shorten", "-", "--straight", "--root", "::show"], "mod m { impl ::show::m::X {} }");
    assert!(!out.contains("pub use") && out.contains("impl ~X {}"), "{out}");
}

#[test]
fn a_refused_place_is_pointed_at() {
    let card = card("mod m { const k: ::a::X = f(1, 2); }");
    let cut = |at: usize, byte: u8| {
        let mut card = card.clone();
        card[at] = byte;
        let answer = run(&["shorten", "-"], &card);
        assert_eq!(answer.status, 1);
        String::from_utf8(answer.out).expect("ASCII")
    };
    let at = |text: &[u8]| card.windows(text.len()).position(|window| window == text).expect("it is there");
    let name = cut(at(b"X"), b'!');
    let lines: Vec<&str> = name.lines().collect();
    assert_eq!(lines[..2], ["mod m {", "    const k: ::a::"]);
    assert!(lines[2].starts_with("                  ^ no name (11) at byte "), "{name}");
    let kind = cut(at(b"2") - 2, 3);
    let lines: Vec<&str> = kind.lines().collect();
    assert_eq!(lines[1], "    const k: ::a::X = f(1,");
    assert!(lines[2].starts_with("                           ^ wrong kind (5) at byte "), "{kind}");
}

#[test]
fn the_page() {
    let card = card(FINALE);
    let page = String::from_utf8(run(&["html", "-"], &card).out).expect("ASCII");
    assert!(!page.contains("<script") && !page.contains("http://") && !page.contains("https://"));
    let short = "<span class=\"short\" tabindex=\"0\">DafnyInt<span class=\"path\" role=\"tooltip\">::dafny_runtime::DafnyInt</span>";
    assert!(page.contains(short));
    assert!(page.contains("<span class=\"use\">pub use ::std::time::Duration;</span>"));
    let mut wrong = card;
    wrong[6] = 0;
    let answer = run(&["html", "-"], &wrong);
    assert_eq!(answer.status, 1);
    let page = String::from_utf8(answer.out).expect("ASCII");
    assert!(page.contains("short record (4) at byte 6: ") && page.ends_with("</html>\n"));
}

/// What a reader sees of a part of a page: no tags, and no path that is only shown when pointed at.
fn seen(page: &str) -> String {
    let (mut text, mut rest) = (String::new(), page);
    while let Some((before, tagged)) = rest.split_once('<') {
        text.push_str(before);
        let (tag, behind) = tagged.split_once('>').expect("a tag ends");
        let hidden = tag.contains("tooltip");
        rest = if hidden { behind.split_once("</span>").expect("a span ends").1 } else { behind };
    }
    text.push_str(rest);
    let text = text.replace("&lt;", "<").replace("&gt;", ">").replace("&quot;", "\"").replace("&#39;", "'");
    text.replace("&amp;", "&")
}

/// Of a random card: the page has every line of it, in full, on its side.
#[test]
fn the_page_leaves_nothing_out() {
    let mut draws = Draws::new(7);
    for i in 0..1_000 {
        let card = if i % 2 == 0 { card_of_paths(&mut draws) } else { sound_card(&mut draws) };
        let shortening = Shortening { root: vegashol::CRATE.to_vec(), straight: draws.once_in(2) };
        let Ok(pair) = shortening.of(&card) else { continue };
        let page = card::html::pair("x", &pair, card.len());
        let rows: Vec<&str> = page.lines().filter(|line| line.starts_with("<div class=\"row ")).collect();
        assert_eq!(rows.len(), 1 + pair.rows.len());
        for (html, row) in rows[1..].iter().zip(&pair.rows) {
            let (before, after) = html.split_once("<div class=\"after\">").expect("two columns");
            let text = |line: &Option<Line>| line.as_ref().map(Line::text).unwrap_or_default();
            assert_eq!((seen(before), seen(after)), (text(&row.before), text(&row.after)));
        }
        let before: Vec<String> =
            pair.rows.iter().filter_map(|row| row.before.as_ref()).map(Line::text).collect();
        let shown = String::from_utf8(run(&["show", "-"], &card).out).expect("ASCII");
        assert_eq!(before, shown.lines().map(str::trim_start).collect::<Vec<_>>());
    }
}

/// With each short name's path in its place, without the parentheses that one may need and the other not.
fn in_full(line: &Line) -> String {
    let full = line.spans.iter().map(|span| match &span.tint {
        Some(Tint::Short(path)) => path.to_string(),
        _ => span.text.clone(),
    });
    full.collect::<String>().replace(['(', ')'], "")
}

/// Of a random card: what is tinted is what the list has, and with the full paths the two sides are the same.
#[test]
fn short_names_stand_for_the_paths_before() {
    let mut draws = Draws::new(5);
    let (mut cards, mut names) = (0, 0);
    while cards < 4_000 {
        let card = card_of_paths(&mut draws);
        let root = vegashol::CRATE.to_vec();
        let Ok(pair) = (Shortening { root, straight: draws.once_in(2) }).of(&card) else { continue };
        let (mut short, mut long, mut put_in) = (0, 0, 0);
        for row in &pair.rows {
            let after = row.after.as_ref().expect("every line is there after");
            let Some(before) = &row.before else {
                assert!(after.is_put_in());
                put_in += 1;
                continue;
            };
            assert_eq!(before.text().replace(['(', ')'], ""), in_full(after));
            assert_eq!(before.indent, after.indent);
            let count = |line: &Line, tint: fn(&Tint) -> bool| {
                line.spans.iter().filter(|span| span.tint.as_ref().is_some_and(tint)).count()
            };
            short += count(after, |tint| matches!(tint, Tint::Short(_)));
            long += count(before, |tint| *tint == Tint::Long);
        }
        assert_eq!((short, long, put_in), (pair.names, pair.names, pair.uses));
        cards += 1;
        names += short;
    }
    assert!(names > 3_000, "{names}");
}

#[test]
fn any_width() {
    let card = card(FINALE);
    let shortening = Shortening { root: vegashol::CRATE.to_vec(), straight: false };
    let pair = shortening.of(&card).expect("a sound card");
    for width in [0, 1, 24, 25, 40, 79, 200, 5_000, usize::MAX] {
        let out = card::view::Screen { width, color: false }.pair(&pair, card.len());
        let width = width.clamp(24, 1_000);
        let mut rows: Vec<&str> = out.lines().collect();
        rows.pop();
        assert!(rows.iter().all(|row| row.len() <= width), "{width}: {out}");
        let bar = (width - 3) / 2 + 1;
        assert!(rows.iter().all(|row| matches!(row.as_bytes()[bar], b'|' | b'+' | b':')), "{width}: {out}");
    }
}
