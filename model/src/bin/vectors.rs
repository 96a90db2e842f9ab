//! Writes or checks the files of the vector programs.
//!
//! - `vectors DIR [NAME..]` writes DIR/vectors_NAME/stdin and stdout;
//! - `vectors --check DIR [NAME..]` compares those files with the model's;
//! - `vectors --table` prints the lengths and checksums of all files.
//!
//! A name is `call`, `agree`, `bits`, `text`, `phrases` or `show`. Without names it takes all.

use model::vectors::{self, Set};
use std::path::Path;
use std::process::ExitCode;
use std::{env, fs, io};

const USAGE: &str = "usage: vectors [--check] DIR [NAME..] | vectors --table";

fn main() -> ExitCode {
    let arguments: Vec<String> = env::args().skip(1).collect();
    let arguments: Vec<&str> = arguments.iter().map(String::as_str).collect();
    let result = match arguments[..] {
        ["--table"] => {
            print!("{}", vectors::table());
            Ok(())
        }
        ["--check", directory, ref names @ ..] => {
            chosen(names).and_then(|sets| check(Path::new(directory), &sets))
        }
        [directory, ref names @ ..] if !directory.starts_with('-') => chosen(names)
            .and_then(|sets| write(Path::new(directory), &sets).map_err(|e| e.to_string())),
        _ => Err(USAGE.to_owned()),
    };
    match result {
        Ok(()) => ExitCode::SUCCESS,
        Err(message) => {
            eprintln!("{message}");
            ExitCode::FAILURE
        }
    }
}

/// The sets of these names, or all without names.
fn chosen(names: &[&str]) -> Result<Vec<Set>, String> {
    if names.is_empty() {
        return Ok(Set::ALL.to_vec());
    }
    let sets: Option<Vec<Set>> = names.iter().map(|name| Set::of_name(name)).collect();
    sets.ok_or(USAGE.to_owned())
}

fn write(directory: &Path, sets: &[Set]) -> io::Result<()> {
    for set in sets {
        let directory = directory.join(set.crate_name());
        fs::create_dir_all(&directory)?;
        for (name, bytes) in set.files().named() {
            fs::write(directory.join(name), bytes)?;
        }
    }
    Ok(())
}

fn check(directory: &Path, sets: &[Set]) -> Result<(), String> {
    for set in sets {
        let directory = directory.join(set.crate_name());
        for (name, bytes) in set.files().named() {
            let path = directory.join(name);
            let stored = fs::read(&path).map_err(|e| format!("{}: {e}", path.display()))?;
            if stored != bytes {
                return Err(format!("{} is not what the model writes", path.display()));
            }
        }
    }
    Ok(())
}
