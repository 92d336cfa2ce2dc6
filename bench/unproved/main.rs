//! A clause store that proves nothing: it reads the scripts of `clause_store` from standard input, and writes the same
//! answers to standard output. It is what the proved program is measured beside.

mod clauses;
mod commands;
mod hashing;
mod literals;
mod packages;
mod queue;
mod reading;
mod replies;
mod saturating;
mod scores;
mod store;
mod tracking;
mod trail;

use commands::Commands;
use packages::Catalogue;
use reading::Cursor;
use replies::Replies;
use std::fs::File;
use std::io::{self, Read, Write};
use std::os::fd::AsFd;
use std::process::ExitCode;

fn main() -> ExitCode {
    match run() {
        Ok(None) => ExitCode::SUCCESS,
        Ok(Some(_)) => ExitCode::from(1),
        Err(_) => ExitCode::from(2),
    }
}

/// Answers the script on standard input. The number of the first unreadable line, if there is one.
fn run() -> io::Result<Option<u64>> {
    let mut script = Vec::new();
    File::from(io::stdin().as_fd().try_clone_to_owned()?).read_to_end(&mut script)?;
    // each line ends with a line feed, and an empty one more is skipped
    script.push(b'\n');
    let mut writer = File::from(io::stdout().as_fd().try_clone_to_owned()?);
    let mut replies = Replies::new();
    let unreadable = answer(&script, &mut replies, &mut writer)?;
    if let Some(line) = unreadable {
        replies.text(b"line ");
        replies.number(line);
        replies.text(b" unreadable\n");
    }
    replies.write_rest(&mut writer)?;
    Ok(unreadable)
}

/// Puts the answers to a script behind those that wait. The number of the first unreadable line, if there is one.
fn answer(script: &[u8], replies: &mut Replies, writer: &mut impl Write) -> io::Result<Option<u64>> {
    let mut cursor = Cursor::new(script);
    let mut catalogue = Catalogue::default();
    let mut line = 0;
    let mut has_begun = false;
    while !has_begun && !cursor.is_at_end() {
        line += 1;
        match catalogue.read_line(&mut cursor) {
            Ok(is_last) => has_begun = is_last,
            Err(_) => return Ok(Some(line)),
        }
        cursor.next_line();
    }
    let mut commands = Commands::new(catalogue.finish(), replies);
    while !cursor.is_at_end() {
        line += 1;
        if commands.obey_line(&mut cursor).is_err() {
            return Ok(Some(line));
        }
        cursor.next_line();
        commands.replies.write_much(writer)?;
    }
    Ok(None)
}
