//! Takes the needed parts of FLURSYS out of its sources, byte for byte, and lays them out as modules.
//!
//! `manifest.txt` names each part by file and lines and pins its SHA-256. A part stands in the laid-out
//! file on the lines that it has in the original; all other lines are blank. What is ours is appended
//! after the last line: imports, and a child module `access` that reaches private items.

mod sha256;

use std::collections::BTreeMap;
use std::fmt::Write;
use std::path::{Path, PathBuf};
use std::{env, fs};

/// The files of FLURSYS in use, and what stands beside their items: imports that the left-out lines made.
const FILES: &[(&str, &str)] = &[
    ("mesh.rs", ""),
    ("fields.rs", ""),
    ("periodic.rs", ""),
    ("numerics.rs", ""),
    (
        "compute.rs",
        "use access::rayon;\npub use access::parallel_rows;\n",
    ),
    ("linear/mod.rs", "pub use access::LinearSolveReport;\n"),
    (
        "momentum.rs",
        "use crate::*;\npub use convection::MomentumConvection;\n",
    ),
    ("momentum/convection.rs", ""),
    ("simple.rs", "use crate::*;\n"),
];

/// Files that are modules of the crate root, with their names there.
const MODULES: &[(&str, &str)] = &[
    ("mesh", "mesh.rs"),
    ("fields", "fields.rs"),
    ("periodic", "periodic.rs"),
    ("numerics", "numerics.rs"),
    ("compute", "compute.rs"),
    ("linear", "linear/mod.rs"),
    ("momentum", "momentum.rs"),
    ("simple", "simple.rs"),
];

/// Laid around the extracted text, which is not ours to tidy.
const ALLOWED: &str = "#[allow(dead_code, unused_imports, unused_variables, clippy::all)]";

/// One row of the manifest.
struct Part {
    file: String,
    first: usize,
    last: usize,
    hash: String,
    what: String,
}

fn main() {
    println!("cargo:rerun-if-changed=build.rs");
    println!("cargo:rerun-if-changed=sha256.rs");
    println!("cargo:rerun-if-changed=manifest.txt");
    println!("cargo:rerun-if-env-changed=FLURSYS_SRC");
    if let Err(message) = extract() {
        eprintln!("\n{message}\n");
        std::process::exit(1);
    }
}

fn extract() -> Result<(), String> {
    let here = PathBuf::from(env::var("CARGO_MANIFEST_DIR").expect("set by cargo"));
    let out = PathBuf::from(env::var("OUT_DIR").expect("set by cargo"));
    let source = source_folder(&here)?;
    let parts = read_manifest(&here.join("manifest.txt"))?;
    let mut printed = String::new();
    let mut kept: BTreeMap<&str, BTreeMap<usize, &str>> = BTreeMap::new();
    let mut texts = BTreeMap::new();
    for (file, _) in FILES {
        let path = source.join("src").join(file);
        println!("cargo:rerun-if-changed={}", path.display());
        let text = fs::read_to_string(&path)
            .map_err(|e| format!("oracle: cannot read src/{file} of FLURSYS: {e}"))?;
        texts.insert(*file, text);
    }
    for part in &parts {
        let file = part.file.as_str();
        let text = texts
            .get(file)
            .ok_or(format!("manifest.txt names a file not in use: {file}"))?;
        let lines: Vec<&str> = text.split_inclusive('\n').collect();
        check_part(part, &lines)?;
        let kept = kept.entry(file).or_default();
        for number in part.first..=part.last {
            kept.insert(number, lines[number - 1]);
        }
        let Part {
            first, last, hash, ..
        } = part;
        writeln!(printed, "src/{file} {first}-{last} {hash} {}", part.what).expect("to a string");
    }
    for (file, beside) in FILES {
        let path = out.join("src").join(file);
        fs::create_dir_all(path.parent().expect("a file in a folder")).map_err(text_of)?;
        let text = laid_out(&kept[file]) + &appended(&here, &out, file, beside);
        fs::write(&path, text).map_err(text_of)?;
    }
    fs::write(out.join("manifest.txt"), printed).map_err(text_of)?;
    fs::write(out.join("modules.rs"), modules(&out)).map_err(text_of)
}

/// `$FLURSYS_SRC`, or else `../shared/docs/src` seen from the repository's root.
fn source_folder(here: &Path) -> Result<PathBuf, String> {
    let folder = match env::var_os("FLURSYS_SRC") {
        Some(folder) => PathBuf::from(folder),
        None => here.join("../../../shared/docs/src"),
    };
    if folder.join("src/simple.rs").is_file() {
        return Ok(folder);
    }
    Err(format!(
        "oracle: the source of FLURSYS is not at hand: no src/simple.rs in {}\n\
         Set FLURSYS_SRC to the folder that holds src/ of FLURSYS at commit f745a8f69b.",
        folder.display()
    ))
}

fn read_manifest(path: &Path) -> Result<Vec<Part>, String> {
    let text = fs::read_to_string(path).map_err(text_of)?;
    text.lines()
        .filter(|line| !line.starts_with('#') && !line.is_empty())
        .map(|line| part_of(line).ok_or(format!("manifest.txt: cannot read the row: {line}")))
        .collect()
}

/// Reads `src/FILE FIRST-LAST HASH WHAT`.
fn part_of(line: &str) -> Option<Part> {
    let mut words = line.splitn(4, ' ');
    let file = words.next()?.strip_prefix("src/")?.to_string();
    let (first, last) = words.next()?.split_once('-')?;
    Some(Part {
        file,
        first: first.parse().ok()?,
        last: last.parse().ok()?,
        hash: words.next()?.to_string(),
        what: words.next()?.to_string(),
    })
}

fn check_part(part: &Part, lines: &[&str]) -> Result<(), String> {
    let Part {
        file, first, last, ..
    } = part;
    let differs = |found: String| {
        format!(
            "oracle: src/{file} is not that of FLURSYS at commit f745a8f69b:\n\
             lines {first} to {last} ({}) {found}",
            part.what
        )
    };
    if *first == 0 || first > last || *last > lines.len() {
        return Err(differs(format!(
            "are not all there: the file has {} lines",
            lines.len()
        )));
    }
    let to_the_end = part.what == "whole" || part.what.starts_with("rest");
    if to_the_end && *last != lines.len() {
        return Err(differs(format!(
            "should be the last lines: the file has {}",
            lines.len()
        )));
    }
    let found = sha256::hex(lines[first - 1..*last].concat().as_bytes());
    if found != part.hash {
        return Err(differs(format!(
            "have the SHA-256\n  {found}, and the pinned one is\n  {}",
            part.hash
        )));
    }
    Ok(())
}

/// The kept lines on their own line numbers.
fn laid_out(kept: &BTreeMap<usize, &str>) -> String {
    let last = kept.keys().next_back().copied().unwrap_or(0);
    let text: String = (1..=last)
        .map(|number| kept.get(&number).copied().unwrap_or("\n"))
        .collect();
    if text.ends_with('\n') {
        text
    } else {
        text + "\n"
    }
}

fn appended(here: &Path, out: &Path, file: &str, beside: &str) -> String {
    let mut text = String::from(beside);
    if file == "momentum.rs" {
        let path = out.join("src/momentum/convection.rs");
        writeln!(text, "#[path = {:?}]\nmod convection;", path).expect("to a string");
    }
    let access = here.join("src/access").join(file);
    if access.is_file() {
        writeln!(
            text,
            "#[warn(dead_code, unused_imports, unused_variables)]\n#[path = {access:?}]\npub mod access;"
        )
        .expect("to a string");
    }
    text
}

fn modules(out: &Path) -> String {
    MODULES
        .iter()
        .map(|(name, file)| {
            let path = out.join("src").join(file);
            format!("{ALLOWED}\n#[path = {path:?}]\npub mod {name};\n")
        })
        .collect()
}

fn text_of(error: std::io::Error) -> String {
    format!("oracle: {error}")
}
