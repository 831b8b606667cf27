//! `second sheet|journal < input > transcript`

use std::io::{self, Read, Write};
use std::process::ExitCode;

use second::transcript::{transcript, Program, LONGEST_INPUT};

fn main() -> ExitCode {
    let program = match std::env::args().nth(1).as_deref() {
        Some("sheet") => Program::Sheet,
        Some("journal") => Program::Journal,
        _ => {
            eprintln!("usage: second sheet|journal < input > transcript");
            return ExitCode::from(2);
        }
    };
    match answer(program) {
        Ok(()) => ExitCode::SUCCESS,
        Err(error) => {
            eprintln!("second: {error}");
            ExitCode::from(2)
        }
    }
}

fn answer(program: Program) -> io::Result<()> {
    let mut input = Vec::new();
    // One byte more than the longest input is enough to tell that it is too long.
    io::stdin().lock().take(LONGEST_INPUT as u64 + 1).read_to_end(&mut input)?;
    io::stdout().lock().write_all(&transcript(program, &input))
}
