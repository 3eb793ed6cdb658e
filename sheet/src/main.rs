//! `juvandeer FILE`, `juvandeer FILE --check FLUXES` and `juvandeer --polymesh FOLDER`.

mod arguments;

use arguments::{Command, USAGE};
use sheet::{files, polymesh, report, AnyOutcome, AnySheet, Mistake};
use std::io::{self, Write};
use std::path::Path;
use std::process::ExitCode;

/// What the program ends with: 0 and these.
const NOT_RIGHT: u8 = 1;
const WRONG_USE: u8 = 2;
const REFUSED: u8 = 3;
const WRONG_FILE: u8 = 4;
const WRONG_FLUX_FILE: u8 = 5;
const NOT_WRITTEN: u8 = 6;

/// What is printed on standard output, or why not.
struct Ending {
    output: String,
    error: String,
    status: u8,
}

impl Ending {
    fn printed(output: String, status: u8) -> Self {
        Self {
            output,
            error: String::new(),
            status,
        }
    }

    fn failed(error: String, status: u8) -> Self {
        Self {
            output: String::new(),
            error,
            status,
        }
    }
}

fn main() -> ExitCode {
    let words: Vec<String> = std::env::args_os()
        .skip(1)
        .map(|word| word.to_string_lossy().into_owned())
        .collect();
    let ending = match Command::of(&words) {
        Ok(Command::Help) => Ending::printed(USAGE.to_string(), 0),
        Ok(Command::Run { file }) => run(&file),
        Ok(Command::Check { file, fluxes }) => mark(&file, &fluxes),
        Ok(Command::Import { folder }) => import(&folder),
        Err(reason) => Ending::failed(format!("juvandeer: {reason}\n{USAGE}"), WRONG_USE),
    };
    // where standard error is closed, the status tells
    let _ = io::stderr().write_all(ending.error.as_bytes());
    match io::stdout().write_all(ending.output.as_bytes()) {
        Ok(()) => ExitCode::from(ending.status),
        Err(_) => ExitCode::from(NOT_WRITTEN),
    }
}

fn run(file: &str) -> Ending {
    match outcome(file) {
        Ok(outcome) => Ending::printed(outcome.report(), 0),
        Err(ending) => ending,
    }
}

fn mark(file: &str, fluxes: &str) -> Ending {
    let outcome = match outcome(file) {
        Ok(outcome) => outcome,
        Err(ending) => return ending,
    };
    match bytes(fluxes).and_then(|bytes| outcome.mark(&bytes)) {
        Ok(mark) => {
            let status = mark.first_wrong.map_or(0, |_| NOT_RIGHT);
            Ending::printed(mark.report(fluxes), status)
        }
        Err(mistake) => told(&mistake, fluxes, WRONG_FLUX_FILE),
    }
}

fn import(folder: &str) -> Ending {
    match polymesh::import(Path::new(folder)) {
        Ok(sheet) => Ending::printed(sheet, 0),
        Err(error) => Ending::failed(format!("{error}\n"), WRONG_FILE),
    }
}

/// What the engine gives for the sheet of a file.
fn outcome(file: &str) -> Result<AnyOutcome, Ending> {
    let sheet = bytes(file).and_then(|bytes| AnySheet::read(&bytes));
    let sheet = sheet.map_err(|mistake| told(&mistake, file, WRONG_FILE))?;
    let refused = |refused| Ending::printed(report::refusal(&refused), REFUSED);
    sheet.run().map_err(refused)
}

fn told(mistake: &Mistake, file: &str, status: u8) -> Ending {
    Ending::failed(format!("{}\n", mistake.in_file(file)), status)
}

/// The bytes of a file, or of standard input where it is named `-`.
fn bytes(file: &str) -> Result<Vec<u8>, Mistake> {
    let bytes = match file {
        "-" => files::standard_input(),
        _ => files::contents(Path::new(file)),
    };
    bytes.map_err(|reason| Mistake { line: 0, reason })
}
