//! The command line.

/// What is printed on `--help`, and after a command that is not understood.
pub const USAGE: &str = "\
usage: juvandeer FILE                    run a sheet: fluxes, outflows, metrics, mass balance; or gradients
       juvandeer FILE --check FLUXES     mark a flux sheet against it, bit by bit; or a gradient sheet
       juvandeer --polymesh FOLDER       print a sheet with the mesh of an OpenFOAM polyMesh folder
FILE and FLUXES can be `-`, standard input. Gradients are what a sheet of `form gradient` gives.
status: 0 accepted, or all is right; 1 a flux or a gradient is wrong; 2 wrong use; 3 refused by the engine;
        4 a mistake in FILE or FOLDER; 5 a mistake in FLUXES; 6 the output could not be written
";

/// What is asked for.
#[derive(Debug, PartialEq, Eq)]
pub enum Command {
    Help,
    Run { file: String },
    Check { file: String, fluxes: String },
    Import { folder: String },
}

impl Command {
    /// The command of the words after the program's name.
    pub fn of(words: &[String]) -> Result<Self, String> {
        let words: Vec<&str> = words.iter().map(String::as_str).collect();
        let owned = |word: &str| word.to_string();
        match words[..] {
            ["--help" | "-h"] => Ok(Self::Help),
            ["--polymesh", folder] => Ok(Self::Import {
                folder: owned(folder),
            }),
            ["-", "--check", "-"] | ["--check", "-", "-"] => {
                Err("only one of the two files can be standard input".to_string())
            }
            [file, "--check", fluxes] | ["--check", fluxes, file] => Ok(Self::Check {
                file: owned(file),
                fluxes: owned(fluxes),
            }),
            [file] if file == "-" || !file.starts_with('-') => Ok(Self::Run { file: owned(file) }),
            _ => Err(complaint(&words)),
        }
    }
}

fn complaint(words: &[&str]) -> String {
    let known = ["--help", "-h", "--check", "--polymesh", "-"];
    let unknown = |word: &&&str| word.starts_with('-') && !known.contains(*word);
    match words {
        [] => "expected the file of a sheet".to_string(),
        [.., "--check"] => {
            "expected the file of a flux sheet or a gradient sheet after `--check`".to_string()
        }
        [.., "--polymesh"] => "expected a polyMesh folder after `--polymesh`".to_string(),
        _ => match words.iter().find(unknown) {
            Some(word) => format!("there is no option `{word}`"),
            None => "expected one file, or one folder after `--polymesh`".to_string(),
        },
    }
}
