//! The mode `compare`: another program on each generated file, its text against the text of this one.

use std::collections::BTreeMap;
use std::io::{ErrorKind, Write};
use std::process::{Command, Output, Stdio};

use crate::files::file;
use crate::reader::read;
use crate::solve::solve;

#[derive(Default)]
struct Tally {
    by_goods: BTreeMap<usize, u64>,
    by_fault: BTreeMap<u8, u64>,
    open: u64,
    cells: u64,
    longest: u64,
}

impl Tally {
    fn add(&mut self, bytes: &[u8], text: &str) {
        match read(bytes) {
            Ok(market) => *self.by_goods.entry(market.goods).or_default() += 1,
            Err(refusal) => *self.by_fault.entry(refusal.number()).or_default() += 1,
        }
        for line in text.lines() {
            self.open += u64::from(line.ends_with("open"));
            let cells = line.split([' ', ':']).nth(3);
            if let (true, Some(Ok(cells))) = (line.contains("cells"), cells.map(str::parse)) {
                self.cells += cells;
                self.longest = self.longest.max(cells);
            }
        }
    }

    fn print(&self, seed: u64, count: u64) {
        println!("seed {seed}: {count} files, no difference");
        for (goods, files) in &self.by_goods {
            println!("  {files} markets of {goods} goods");
        }
        for (number, files) in &self.by_fault {
            println!("  {files} files with fault {number}");
        }
        println!(
            "  {} cells entered, {} on the longest mesh",
            self.cells, self.longest
        );
        println!("  {} tables end open", self.open);
    }
}

/// What a program prints for a file on its standard input. It need not read all of it.
fn run(program: &str, bytes: &[u8]) -> Result<Output, std::io::Error> {
    let mut command = Command::new(program);
    command.stdin(Stdio::piped()).stdout(Stdio::piped());
    let mut child = command.stderr(Stdio::piped()).spawn()?;
    if let Some(mut input) = child.stdin.take() {
        match input.write_all(bytes) {
            Err(error) if error.kind() != ErrorKind::BrokenPipe => return Err(error),
            _ => {}
        }
    }
    child.wait_with_output()
}

fn hexadecimal(bytes: &[u8]) -> String {
    let mut text = String::new();
    for line in bytes.chunks(32) {
        for byte in line {
            text += &format!("{byte:02X}");
        }
        text += "\n";
    }
    text
}

fn compare_one(program: &str, bytes: &[u8], own: &str) -> Result<(), String> {
    let output = run(program, bytes).map_err(|error| format!("{program}: {error}"))?;
    let other = String::from_utf8_lossy(&output.stdout);
    if output.status.success() && output.stderr.is_empty() && other == own {
        return Ok(());
    }
    let errors = String::from_utf8_lossy(&output.stderr);
    Err(format!(
        "{}own answer:\n{own}answer of {program} ({}):\n{other}{errors}",
        hexadecimal(bytes),
        output.status,
    ))
}

/// Compares on so many files; stops at the first difference and shows the file.
pub fn compare(seed: u64, count: u64, program: &str) -> Result<(), String> {
    let mut tally = Tally::default();
    for index in 0..count {
        let bytes = file(seed, index);
        let own = solve(&bytes);
        compare_one(program, &bytes, &own)
            .map_err(|what| format!("seed {seed}, file {index} differs:\n{what}"))?;
        tally.add(&bytes, &own);
    }
    tally.print(seed, count);
    Ok(())
}
