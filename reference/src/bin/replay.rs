//! Replays recorded cases with the fast reader: `replay calls` or
//! `replay walk`, standard input to standard output.

use reference::calls::Fast;
use reference::replay;
use std::io::{Read, Write};
use std::process::ExitCode;

fn main() -> ExitCode {
    let mut input = Vec::new();
    if std::io::stdin().read_to_end(&mut input).is_err() {
        return ExitCode::FAILURE;
    }
    let mut reader = Fast::default();
    let text = match std::env::args().nth(1).as_deref() {
        Some("calls") => replay::calls(&mut reader, &input),
        Some("walk") => replay::walks(&mut reader, &input),
        _ => Err(String::from("usage: replay calls|walk")),
    };
    match text.map(|text| std::io::stdout().write_all(text.as_bytes())) {
        Ok(Ok(())) => ExitCode::SUCCESS,
        Ok(Err(error)) => {
            eprintln!("{error}");
            ExitCode::FAILURE
        }
        Err(error) => {
            eprintln!("{error}");
            ExitCode::FAILURE
        }
    }
}
