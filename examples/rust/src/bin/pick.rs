//! Picks versions from an index, as `examples/c/pick.c` does: `pick FILE [STEPS [ROOM]]`
//!
//! The answer is printed, and the exit status is what became of the index, or 4 if the file can't be read, a word is no
//! number, or the answer can't be printed. If a first buffer of ROOM bytes is too small, a second one has the size that
//! the answer needs.
use nivolakku::calls::pick;
use std::error::Error;
use std::ffi::OsString;
use std::io::{self, Write};
use std::process::ExitCode;
use std::{env, fs};

fn main() -> ExitCode {
    run().unwrap_or_else(|fault| {
        eprintln!("{fault}");
        ExitCode::from(4)
    })
}

fn run() -> Result<ExitCode, Box<dyn Error>> {
    let words: Vec<OsString> = env::args_os().collect();
    let (file, numbers) = match words.as_slice() {
        [_, file, numbers @ ..] => (file, numbers),
        _ => return Err("pick FILE [STEPS [ROOM]]".into()),
    };
    let steps = numbers.first().map_or(Ok(1 << 20), number)?;
    let room = numbers.get(1).map_or(Ok(256), number)?;
    let index = fs::read(file).map_err(|fault| format!("{}: {fault}", file.display()))?;
    let mut buffer = zeros(usize::try_from(room)?)?;
    let told = match pick(&index, steps, &mut buffer) {
        Err(small) => {
            eprintln!("{small}");
            buffer = zeros(small.needed)?;
            pick(&index, steps, &mut buffer)
        }
        told => told,
    };
    let (outcome, length) = told?;
    io::stdout()
        .write_all(&buffer[..length])
        .map_err(|fault| format!("standard output: {fault}"))?;
    Ok(ExitCode::from(outcome as u8))
}

/// The number that a word is.
fn number(word: &OsString) -> Result<u64, String> {
    let number = word.to_str().and_then(|text| text.parse().ok());
    number.ok_or_else(|| format!("{} is no number below 2^64", word.display()))
}

/// A buffer of this size.
fn zeros(size: usize) -> Result<Vec<u8>, Box<dyn Error>> {
    let mut buffer = Vec::new();
    buffer.try_reserve_exact(size)?;
    buffer.resize(size, 0);
    Ok(buffer)
}
