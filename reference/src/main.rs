//! `reference replay` answers the script on standard input; `reference generate` prints the test script;
//! `reference judge` judges a recorded phase one on standard input.

use std::io::{self, BufWriter, Write};
use std::process::ExitCode;

use reference::{generate, judge, replay};

const USAGE: &str = "usage: reference replay < SCRIPT | reference generate | reference judge < RECORDING";

fn main() -> ExitCode {
    let words: Vec<String> = std::env::args().skip(1).collect();
    let words: Vec<&str> = words.iter().map(String::as_str).collect();
    let done = match words[..] {
        ["replay"] => print_answers(),
        ["generate"] => io::stdout().lock().write_all(&generate::script()),
        ["judge"] => print_verdict(),
        _ => {
            eprintln!("{USAGE}");
            return ExitCode::from(2);
        }
    };
    match done {
        Ok(()) => ExitCode::SUCCESS,
        Err(error) => {
            eprintln!("reference: {error}");
            ExitCode::FAILURE
        }
    }
}

fn print_answers() -> io::Result<()> {
    let mut output = BufWriter::new(io::stdout().lock());
    replay::run(io::stdin().lock(), &mut output)?;
    output.flush()
}

fn print_verdict() -> io::Result<()> {
    let verdict = judge::judge_input(io::stdin().lock())?;
    io::stdout().lock().write_all(verdict.report().as_bytes())
}
