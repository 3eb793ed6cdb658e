//! The oracle: the original Rust of FLURSYS beside the port. README.md says how it is used.

mod bench;
mod calls;
mod cases;
mod checks;
mod compare;
mod coverage;
mod damage;
mod distances;
mod edges;
mod entry;
mod exact;
mod gradients;
mod lent;
mod lines;
mod linked;
mod list;
mod makers;
mod mirror;
mod pairs;
mod port;
mod random;
#[cfg(feature = "sheets")]
mod sheets;

use std::process::ExitCode;

const USAGE: &str = "\
usage: oracle COMMAND

  manifest                         what is built from the sources of FLURSYS: file, lines, SHA-256
  compare [--seed S] [--cases N]   the port against the Rust, on N meshes made at random and some by hand
  list                             the fixed list, for the repository's own tests
  edges                            the lines of the program `edges`
  oneslice                         the lines of the program `oneslice`
  distances                        the lines of the program `distances`
  gradients                        the lines of the program `gradients`
  pairs                            the lines of the program `pairs`
  sheets FILE...                   the port against the Rust, on sheets of the sheet program
  fluxes FILE                      the fluxes that the Rust gives for a sheet
  bench                            times of both sides
  self-test [--seed S] [--cases N] the comparison tried on the Rust itself and on spoiled copies of it
  coverage-cases [--seed S] [--cases N] [--built]
                                   the Rust's calls alone, for oracle/coverage; with --built only on
                                   meshes that the Rust builds, without damaged copies
";

fn main() -> ExitCode {
    let arguments: Vec<String> = std::env::args().skip(1).collect();
    let (command, options) = match arguments.split_first() {
        Some((command, options)) => (command.as_str(), options),
        None => ("", &[][..]),
    };
    match command {
        "sheets" => return sheets(options),
        "fluxes" => return fluxes(options),
        _ => {}
    }
    let Some(settings) = settings(options) else {
        return refused();
    };
    match command {
        "manifest" => print!("{}", flursys::MANIFEST),
        "compare" => {
            if !compare::run(&port::linked(), &settings) {
                return ExitCode::FAILURE;
            }
        }
        "self-test" => {
            if !mirror::run(&settings) {
                return ExitCode::FAILURE;
            }
        }
        "list" => print!("{}", list::text()),
        "edges" => print!("{}", edges::text()),
        "oneslice" => print!("{}", edges::in_place()),
        "distances" => print!("{}", distances::text()),
        "gradients" => print!("{}", gradients::text()),
        "pairs" => print!("{}", pairs::text()),
        "bench" => bench::run(&port::linked()),
        "coverage-cases" => coverage::run(&settings),
        _ => return refused(),
    }
    ExitCode::SUCCESS
}

#[cfg(feature = "sheets")]
fn sheets(files: &[String]) -> ExitCode {
    match sheets::run(&port::linked(), files) {
        true => ExitCode::SUCCESS,
        false => ExitCode::FAILURE,
    }
}

#[cfg(feature = "sheets")]
fn fluxes(files: &[String]) -> ExitCode {
    match files {
        [file] => match sheets::fluxes(file) {
            Some(text) => {
                print!("{text}");
                ExitCode::SUCCESS
            }
            None => ExitCode::FAILURE,
        },
        _ => refused(),
    }
}

#[cfg(not(feature = "sheets"))]
fn sheets(_: &[String]) -> ExitCode {
    eprintln!("oracle: built without the feature `sheets`");
    ExitCode::from(2)
}

#[cfg(not(feature = "sheets"))]
fn fluxes(files: &[String]) -> ExitCode {
    sheets(files)
}

fn refused() -> ExitCode {
    eprint!("{USAGE}");
    ExitCode::from(2)
}

/// Reads `--seed S`, `--cases N` and `--built`.
fn settings(options: &[String]) -> Option<cases::Settings> {
    let mut settings = cases::Settings {
        seed: 1,
        cases: 2_000,
        large: true,
        built: false,
    };
    let mut options = options.iter();
    while let Some(option) = options.next() {
        match option.as_str() {
            "--seed" => settings.seed = options.next()?.parse().ok()?,
            "--cases" => settings.cases = options.next()?.parse().ok()?,
            "--built" => settings.built = true,
            _ => return None,
        }
    }
    Some(settings)
}
