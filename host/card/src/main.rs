#![forbid(unsafe_code)]

use card::command::{run, Around};
use std::env;
use std::ffi::OsString;
use std::fs::File;
use std::io::{self, IsTerminal};
use std::process::{Command, ExitCode, Stdio};

fn main() -> ExitCode {
    let arguments: Vec<OsString> = env::args_os().skip(1).collect();
    let terminal = io::stdout().is_terminal();
    let mut around = Around {
        input: &mut io::stdin().lock(),
        output: &mut io::stdout().lock(),
        errors: &mut io::stderr().lock(),
        terminal,
        no_color: env::var_os("NO_COLOR").is_some_and(|value| !value.is_empty())
            || env::var_os("TERM").is_some_and(|term| term == "dumb"),
        width: width(terminal),
    };
    ExitCode::from(run(&arguments, &mut around))
}

/// By COLUMNS, or else by the terminal, which `stty` asks.
fn width(terminal: bool) -> Option<usize> {
    let columns = env::var("COLUMNS").ok().and_then(|columns| columns.parse().ok());
    columns.filter(|columns| *columns > 0).or_else(|| if terminal { of_terminal() } else { None })
}

fn of_terminal() -> Option<usize> {
    let terminal = Stdio::from(File::open("/dev/tty").ok()?);
    let answer = Command::new("stty").arg("size").stdin(terminal).stderr(Stdio::null()).output().ok()?;
    let size = String::from_utf8(answer.stdout).ok()?;
    size.split_whitespace().nth(1)?.parse().ok().filter(|width| *width > 0)
}
