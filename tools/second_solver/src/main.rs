//! The modes of the second solver, by the words on the command line.

use std::fs;
use std::io::{self, Read, Write};
use std::process::ExitCode;

use second_solver::check::check;
use second_solver::compare::compare;
use second_solver::files::file;
use second_solver::solve::solve;

const USAGE: &str = "second_solver solve < FILE
second_solver make SEED COUNT FOLDER
second_solver check SEED COUNT
second_solver compare SEED COUNT PROGRAM";

fn number(word: &str) -> Result<u64, String> {
    word.parse().map_err(|_| format!("no number: {word}"))
}

fn solve_input() -> Result<(), io::Error> {
    let mut bytes = Vec::new();
    io::stdin().read_to_end(&mut bytes)?;
    io::stdout().write_all(solve(&bytes).as_bytes())
}

fn make(seed: u64, count: u64, folder: &str) -> Result<(), io::Error> {
    fs::create_dir_all(folder)?;
    for index in 0..count {
        fs::write(format!("{folder}/{seed}_{index}.market"), file(seed, index))?;
    }
    Ok(())
}

fn go(words: &[&str]) -> Result<(), String> {
    let told = |error: io::Error| error.to_string();
    match words {
        ["solve"] => solve_input().map_err(told),
        ["make", seed, count, folder] => make(number(seed)?, number(count)?, folder).map_err(told),
        ["check", seed, count] => check(number(seed)?, number(count)?),
        ["compare", seed, count, program] => compare(number(seed)?, number(count)?, program),
        _ => Err(USAGE.to_string()),
    }
}

fn main() -> ExitCode {
    let words: Vec<String> = std::env::args().skip(1).collect();
    let words: Vec<&str> = words.iter().map(String::as_str).collect();
    match go(&words) {
        Ok(()) => ExitCode::SUCCESS,
        Err(what) => {
            eprintln!("{what}");
            ExitCode::FAILURE
        }
    }
}
