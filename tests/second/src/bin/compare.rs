//! `compare SHEET_PROGRAM JOURNAL_PROGRAM COUNT SEED`: gives both programs COUNT random inputs and compares every
//! transcript, byte for byte, with the library's own.

use std::collections::BTreeMap;
use std::error::Error;
use std::fmt::Write as _;
use std::io::{ErrorKind, Write};
use std::path::PathBuf;
use std::process::{Command, ExitCode, Stdio};

use second::inputs::input;
use second::lines::split_lines;
use second::transcript::{transcript, Program};

type Outcome<V> = Result<V, Box<dyn Error>>;

struct Arguments {
    sheet: String,
    journal: String,
    count: u64,
    seed: u64,
}

/// What the inputs came to, so that one sees what was covered.
#[derive(Default)]
struct Tally {
    inputs: u64,
    lines: usize,
    ok: usize,
    refused: BTreeMap<u8, usize>,
}

fn main() -> ExitCode {
    match arguments().and_then(compare_all) {
        Ok(true) => ExitCode::SUCCESS,
        Ok(false) => ExitCode::from(1),
        Err(error) => {
            eprintln!("compare: {error}");
            ExitCode::from(2)
        }
    }
}

fn arguments() -> Outcome<Arguments> {
    let words: Vec<String> = std::env::args().skip(1).collect();
    match words.as_slice() {
        [sheet, journal, count, seed] => {
            Ok(Arguments { sheet: sheet.clone(), journal: journal.clone(), count: count.parse()?, seed: seed.parse()? })
        }
        _ => Err("usage: compare SHEET_PROGRAM JOURNAL_PROGRAM COUNT SEED".into()),
    }
}

/// Whether all transcripts are alike; stops at the first that is not.
fn compare_all(arguments: Arguments) -> Outcome<bool> {
    let mut tally = Tally::default();
    for index in 0..arguments.count {
        let bytes = input(arguments.seed, index);
        tally.inputs += 1;
        tally.lines += split_lines(&bytes).count();
        for (program, path) in [(Program::Sheet, &arguments.sheet), (Program::Journal, &arguments.journal)] {
            let own = transcript(program, &bytes);
            tally.add(&own);
            let theirs = run(path, &bytes)?;
            if theirs != own {
                let saved = save(&arguments, index, &bytes)?;
                println!(
                    "compare: {path} differs on input {index} of seed {}, saved as {}",
                    arguments.seed,
                    saved.display()
                );
                print!("{}", around_difference(&theirs, &own));
                return Ok(false);
            }
        }
    }
    println!("{}", tally.summary());
    Ok(true)
}

/// What the program writes with these bytes on its standard input.
fn run(path: &str, bytes: &[u8]) -> Outcome<Vec<u8>> {
    let mut child = Command::new(path)
        .stdin(Stdio::piped())
        .stdout(Stdio::piped())
        .spawn()
        .map_err(|error| format!("{path}: {error}"))?;
    let mut stdin = child.stdin.take().ok_or("the child has no standard input")?;
    let bytes = bytes.to_vec();
    // Its own thread, because a pipe may be full before the child has read it all.
    let writer = std::thread::spawn(move || match stdin.write_all(&bytes) {
        // The child may stop reading when it has had enough.
        Err(error) if error.kind() != ErrorKind::BrokenPipe => Err(error),
        _ => Ok(()),
    });
    let output = child.wait_with_output()?;
    writer.join().map_err(|_| "the writing thread failed")??;
    if !output.status.success() {
        return Err(format!("{path} ended with {}", output.status).into());
    }
    Ok(output.stdout)
}

fn save(arguments: &Arguments, index: u64, bytes: &[u8]) -> Outcome<PathBuf> {
    let path = std::env::temp_dir().join(format!("compare-{}-{index}.in", arguments.seed));
    std::fs::write(&path, bytes)?;
    Ok(path)
}

/// Both transcripts from two lines before the first differing line to two lines after it.
fn around_difference(theirs: &[u8], own: &[u8]) -> String {
    let theirs: Vec<&[u8]> = theirs.split_inclusive(|&byte| byte == b'\n').collect();
    let own: Vec<&[u8]> = own.split_inclusive(|&byte| byte == b'\n').collect();
    let first = theirs.iter().zip(&own).take_while(|(one, other)| one == other).count();
    let mut text = String::new();
    for (title, lines) in [("the program writes", theirs), ("the rules give", own)] {
        let _ = writeln!(text, "{title}, from line {}:", first.saturating_sub(2) + 1);
        for (at, line) in lines.iter().enumerate().skip(first.saturating_sub(2)).take(5) {
            let sign = if at == first { '>' } else { ' ' };
            let _ = writeln!(text, "{sign} {}", line.escape_ascii());
        }
        if lines.len() <= first {
            text.push_str("> (nothing more)\n");
        }
    }
    text
}

impl Tally {
    /// Counts the answers of a transcript: `LINE ok …` and `LINE no PART NUMBER …`.
    fn add(&mut self, transcript: &[u8]) {
        let text = String::from_utf8_lossy(transcript);
        for line in text.lines() {
            let words: Vec<&str> = line.split(' ').collect();
            match words.as_slice() {
                [_, "ok", ..] => self.ok += 1,
                [_, "no", _, number, ..] => {
                    if let Ok(number) = number.parse() {
                        *self.refused.entry(number).or_default() += 1;
                    }
                }
                _ => {}
            }
        }
    }

    fn summary(&self) -> String {
        let refused: Vec<String> = self.refused.iter().map(|(number, count)| format!("{number}: {count}")).collect();
        format!(
            "compare: {} inputs, {} lines; both programs as they must be; of their answers {} ok, refused by number {}",
            self.inputs,
            self.lines,
            self.ok,
            refused.join(", ")
        )
    }
}
