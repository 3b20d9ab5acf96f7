//! The commands. What they read, write and answer is handed in, so that they can be run in a test.

use crate::pair::{self, Refused, Shortening};
use crate::view::Screen;
use crate::{html, make, records, show, spell};
use std::ffi::{OsStr, OsString};
use std::fs::{self, File};
use std::io::{Read, Write};
use vegashol::{Reason, Refusal};

pub const USAGE: &str = "\
card show FILE [--bytes]                        a card as text
card make FILE [-o OUT]                         a card from that text
card shorten FILE [--root PATH] [--straight]    before and after side by side
             [--color auto|always|never] [-o OUT]
card html FILE [--root PATH] [--straight]       the same as a page
          [-o OUT]

FILE may be -, standard input. PATH is where the card's module stands, as Rust
writes it; without it, crate. -o OUT: the card that is made, the shortened card,
or the page goes to OUT.
";

/// What stands around a command.
pub struct Around<'a> {
    pub input: &'a mut dyn Read,
    pub output: &'a mut dyn Write,
    pub errors: &'a mut dyn Write,
    /// Whether the output is a terminal.
    pub terminal: bool,
    /// Whether NO_COLOR asks for none, or TERM is a terminal that has none.
    pub no_color: bool,
    /// How wide the output is, if that is known.
    pub width: Option<usize>,
}

/// A line for standard error, and the exit status.
struct Failure {
    line: String,
    status: u8,
}

type Done = Result<(), Failure>;

fn bad<T>(line: String) -> Result<T, Failure> {
    Err(Failure { line, status: 1 })
}

fn misused<T>(line: impl Into<String>) -> Result<T, Failure> {
    let line = format!("card: {} (card --help tells more)", line.into());
    Err(Failure { line, status: 2 })
}

/// The exit status: 0, 1 for input that is refused or can't be read or written, 2 for a command that is not one.
pub fn run(arguments: &[OsString], around: &mut Around) -> u8 {
    match command(arguments, around) {
        Ok(()) => 0,
        Err(failure) => {
            // Where not even this can be written, the status tells.
            let _ = writeln!(around.errors, "{}", failure.line);
            failure.status
        }
    }
}

fn command(arguments: &[OsString], around: &mut Around) -> Done {
    let Some((name, rest)) = arguments.split_first() else { return print(around, USAGE.as_bytes()) };
    match name.to_str() {
        Some("--help" | "-h" | "help") => print(around, USAGE.as_bytes()),
        Some("show") => show_card(&Options::of(rest, &["--bytes"])?, around),
        Some("make") => make_card(&Options::of(rest, &["-o"])?, around),
        Some("shorten") => shorten(&Options::of(rest, &["--root", "--straight", "--color", "-o"])?, around),
        Some("html") => page(&Options::of(rest, &["--root", "--straight", "-o"])?, around),
        _ => misused(format!("there is no command {}", plain(name))),
    }
}

/// What a command was given.
#[derive(Default)]
struct Options {
    file: OsString,
    bytes: bool,
    straight: bool,
    root: Option<OsString>,
    color: Option<OsString>,
    out: Option<OsString>,
}

impl Options {
    fn of(arguments: &[OsString], known: &[&str]) -> Result<Options, Failure> {
        let mut options = Options::default();
        let mut files = Vec::new();
        let mut arguments = arguments.iter();
        let mut options_end = false;
        while let Some(argument) = arguments.next() {
            let is_option = argument.as_encoded_bytes().starts_with(b"-") && argument != "-" && !options_end;
            if !is_option {
                files.push(argument);
                continue;
            }
            if argument == "--" {
                options_end = true;
                continue;
            }
            let Some(name) = known.iter().find(|name| argument == **name) else {
                return misused(format!("there is no option {} here", plain(argument)));
            };
            let mut value = || match arguments.next() {
                Some(value) => Ok(Some(value.clone())),
                None => misused(format!("{name} wants a value behind it")),
            };
            match *name {
                "--bytes" => options.bytes = true,
                "--straight" => options.straight = true,
                "--root" => options.root = value()?,
                "--color" => options.color = value()?,
                _ => options.out = value()?,
            }
        }
        match files[..] {
            [file] => options.file = file.clone(),
            [] => return misused("which file?"),
            _ => return misused("only one file can be given"),
        }
        Ok(options)
    }

    fn file(&self) -> String {
        match self.file.to_str() {
            Some("-") => "standard input".to_string(),
            _ => plain(&self.file),
        }
    }

    /// The file's bytes, and one more than `most` where there are more.
    fn read(&self, most: usize, around: &mut Around) -> Result<Vec<u8>, Failure> {
        let mut bytes = Vec::new();
        let limit = most as u64 + 1;
        let read = if self.file == "-" {
            (&mut *around.input).take(limit).read_to_end(&mut bytes)
        } else {
            File::open(&self.file).and_then(|file| file.take(limit).read_to_end(&mut bytes))
        };
        match read {
            Ok(_) => Ok(bytes),
            Err(error) => bad(format!("card: can't read {}: {error}", self.file())),
        }
    }

    fn shortening(&self) -> Result<Shortening, Failure> {
        let root = match &self.root {
            None => vegashol::CRATE.to_vec(),
            Some(path) => match make::path(path.as_encoded_bytes()) {
                Ok(root) => root,
                Err(fault) => {
                    return bad(format!("card: the root {} is no path: {}", plain(path), fault.what));
                }
            },
        };
        Ok(Shortening { root, straight: self.straight })
    }

    /// The line of a refusal.
    fn refused(&self, refusal: Refusal, card: &[u8]) -> String {
        if let (Reason::BadRoot, Some(root)) = (refusal.reason, &self.root) {
            return format!("card: the root {}: {refusal}", plain(root));
        }
        let text =
            !card.is_empty() && card.iter().all(|byte| matches!(byte, b' '..=b'~' | b'\n' | b'\r' | b'\t'));
        let hint = if text { "; this is text, of which `card make` makes a card" } else { "" };
        format!("card: {}: {refusal}{hint}", self.file())
    }

    /// To OUT, if it is given.
    fn write(&self, bytes: &[u8], around: &mut Around) -> Done {
        match &self.out {
            Some(out) if out != "-" => match fs::write(out, bytes) {
                Ok(()) => Ok(()),
                Err(error) => bad(format!("card: can't write {}: {error}", plain(out))),
            },
            _ => print(around, bytes),
        }
    }
}

/// A name in a message.
fn plain(name: &OsStr) -> String {
    spell::escaped(name.as_encoded_bytes())
}

fn print(around: &mut Around, bytes: &[u8]) -> Done {
    match around.output.write_all(bytes).and_then(|()| around.output.flush()) {
        Ok(()) => Ok(()),
        Err(error) => bad(format!("card: can't write standard output: {error}")),
    }
}

fn show_card(options: &Options, around: &mut Around) -> Done {
    let card = options.read(vegashol::MOST_CARD, around)?;
    let reading = records::read(&card);
    if let Some(refusal) = reading.refusal {
        let width = around.width.filter(|_| around.terminal).unwrap_or(usize::MAX);
        let Refused { shown, .. } = pair::refused(&reading, refusal);
        let tree = Screen { width, color: false }.tree(&shown, Some(refusal), options.bytes);
        print(around, tree.as_bytes())?;
        return bad(options.refused(refusal, &card));
    }
    let Some(tree) = reading.tree else { return Ok(()) };
    let shown = show::show(&tree, &show::Look::default());
    // What `make` is to take is in whole lines, however long.
    let screen = Screen { width: usize::MAX, color: false };
    print(around, screen.tree(&shown, None, options.bytes).as_bytes())
}

fn make_card(options: &Options, around: &mut Around) -> Done {
    let text = options.read(make::MOST_TEXT, around)?;
    if text.len() > make::MOST_TEXT {
        return bad(format!("card: {}: the text has more than {} bytes", options.file(), make::MOST_TEXT));
    }
    if text.contains(&0) {
        return bad(format!("card: {}: this is no text; `card show` shows a card", options.file()));
    }
    let card = match make::make(&text) {
        Ok(card) => card,
        Err(fault) => {
            return bad(format!("{}:{}:{}: {}", options.file(), fault.line, fault.column, fault.what));
        }
    };
    if around.terminal && options.out.is_none() {
        return misused("a card is bytes, which a terminal can't show: say where it goes with -o OUT");
    }
    options.write(&card, around)
}

fn shorten(options: &Options, around: &mut Around) -> Done {
    let color = match options.color.as_deref().map(|color| (color, color.to_str())) {
        None | Some((_, Some("auto"))) => around.terminal && !around.no_color,
        Some((_, Some("always"))) => true,
        Some((_, Some("never"))) => false,
        Some((color, _)) => {
            return misused(format!("--color is auto, always or never, and not {}", plain(color)))
        }
    };
    let screen = Screen { width: around.width.unwrap_or(100), color };
    let shortening = options.shortening()?;
    let card = options.read(vegashol::MOST_CARD, around)?;
    match shortening.of(&card) {
        Ok(pair) => {
            if options.out.is_some() {
                options.write(&pair.output, around)?;
            }
            if options.out.as_deref() == Some(OsStr::new("-")) {
                return Ok(());
            }
            print(around, screen.pair(&pair, card.len()).as_bytes())
        }
        Err(refused) => {
            print(around, screen.tree(&refused.shown, Some(refused.refusal), false).as_bytes())?;
            bad(options.refused(refused.refusal, &card))
        }
    }
}

fn page(options: &Options, around: &mut Around) -> Done {
    let shortening = options.shortening()?;
    let card = options.read(vegashol::MOST_CARD, around)?;
    let name = options.file();
    match shortening.of(&card) {
        Ok(pair) => options.write(html::pair(&name, &pair, card.len()).as_bytes(), around),
        Err(refused) => {
            let Refused { refusal, .. } = *refused;
            options.write(html::refused(&name, &refused).as_bytes(), around)?;
            bad(options.refused(refusal, &card))
        }
    }
}
