//! A second program for shift sheets, written from the documents alone, to hold against the first.

mod bench;
mod boards;
mod clerk;
mod console;
mod forge;
mod make;
mod refusal;
mod rng;
mod seals;
mod sha256;
mod sheet;
mod shelf;
mod shift;
mod text;
mod wire;

use clerk::{play_sheet, Stop};
use std::io::{self, Write};
use std::process::ExitCode;

const USE: &str = "use: peer < SHEET | peer bench N VIEWS | peer make SEED LINES";

fn main() -> ExitCode {
    let arguments: Vec<String> = std::env::args().skip(1).collect();
    let arguments: Vec<&str> = arguments.iter().map(String::as_str).collect();
    match arguments[..] {
        [] => play(),
        ["bench", n, views] => match (n.parse(), views.parse()) {
            (Ok(n), Ok(views)) => run_bench(n, views),
            _ => fail(USE),
        },
        ["make", seed, lines] => match (seed.parse(), lines.parse()) {
            (Ok(seed), Ok(lines)) => print_sheet(seed, lines),
            _ => fail(USE),
        },
        _ => fail(USE),
    }
}

fn fail(what: &str) -> ExitCode {
    eprintln!("{what}");
    ExitCode::FAILURE
}

fn play() -> ExitCode {
    match play_sheet(io::stdin().lock(), io::stdout().lock()) {
        Ok(()) => ExitCode::SUCCESS,
        Err(Stop::Fault(line, fault)) => fail(&format!("line {line}: {fault}")),
        Err(Stop::Io(error)) => fail(&error.to_string()),
    }
}

fn run_bench(n: u8, views: u32) -> ExitCode {
    match bench::run(n, views) {
        Ok(()) => ExitCode::SUCCESS,
        Err(refusal) => fail(&format!("refused {}", refusal.number())),
    }
}

fn print_sheet(seed: u64, lines: usize) -> ExitCode {
    match io::stdout()
        .lock()
        .write_all(&make::make(seed, lines).sheet)
    {
        Ok(()) => ExitCode::SUCCESS,
        Err(error) => fail(&error.to_string()),
    }
}
