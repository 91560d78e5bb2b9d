//! What the six examples share, as examples/c/example.h does for C: the exit status, reading files and numbers, and saying why a call was
//! refused. They take the same arguments as the C ones and print the same: examples/README.md.

// Each example has all of it and uses a part.
#![allow(dead_code)]

use std::ffi::{OsStr, OsString};
use std::fmt;
use std::fs::File;
use std::io::{self, Read, Write};
use std::process::ExitCode;

use zomuwedli::{Refusal, MAX_SHEET};

/// Why an example does not end with 0. The reason was said on standard error.
#[derive(Clone, Copy)]
pub enum Status {
    Refused = 1,
    Usage = 2,
    Failed = 3,
}

/// Does the work on the arguments, prints the bytes that it made, whatever its end, and answers the status.
pub fn main(work: fn(&[OsString], &mut Vec<u8>) -> Result<(), Status>) -> ExitCode {
    let arguments: Vec<OsString> = std::env::args_os().skip(1).collect();
    let mut made = Vec::new();
    let done = work(&arguments, &mut made);
    // A panicking print would end with another status than a failed write has.
    let mut output = io::stdout().lock();
    let written = output.write_all(&made).and_then(|()| output.flush());
    match written.map_err(|error| failed("standard output", &error)).and(done) {
        Ok(()) => ExitCode::SUCCESS,
        Err(status) => ExitCode::from(status as u8),
    }
}

/// Where standard error cannot be written either, the status is all there is.
fn say(reason: fmt::Arguments<'_>) {
    let _ = writeln!(io::stderr(), "{reason}");
}

pub fn usage(arguments: &str) -> Status {
    let program = std::env::args_os().next().unwrap_or_default();
    say(format_args!("usage: {} {arguments}", program.to_string_lossy()));
    Status::Usage
}

fn failed(what: &str, error: &io::Error) -> Status {
    say(format_args!("{what}: {error}"));
    Status::Failed
}

/// Says why a call was refused; what it was made for is a sheet, a file or an item, by its name.
pub fn explain(what: &str, name: &OsStr, refusal: impl fmt::Display) -> Status {
    say(format_args!("{what} {}: {refusal}", name.to_string_lossy()));
    Status::Refused
}

/// The same for a sheet, with the one line that is then printed.
pub fn refuse(sheet: &OsStr, refusal: Refusal, text: &mut Vec<u8>) -> Status {
    refuse_for("sheet", sheet, refusal, text)
}

/// The same for a sheet or a file.
pub fn refuse_for(what: &str, name: &OsStr, refusal: Refusal, text: &mut Vec<u8>) -> Status {
    line(text, "refused", [refusal.number()]);
    explain(what, name, refusal)
}

/// Adds a line: a word, or several, and numbers after it.
pub fn line<T: fmt::Display>(text: &mut Vec<u8>, word: impl fmt::Display, numbers: impl IntoIterator<Item = T>) {
    text.extend(word.to_string().bytes());
    for number in numbers {
        text.extend(format!(" {number}").bytes());
    }
    text.push(b'\n');
}

/// A decimal number of digits only: `parse` by itself takes a sign too.
pub fn number<T: std::str::FromStr>(text: &OsStr) -> Option<T> {
    let text = text.to_str().filter(|text| text.bytes().all(|byte| byte.is_ascii_digit()))?;
    text.parse().ok()
}

/// A sheet from a file: one byte more than the longest has at most, so that a longer file is refused and not cut to a sheet.
pub fn read_sheet(name: &OsStr) -> Result<Vec<u8>, Status> {
    read_file(name, MAX_SHEET + 1)
}

/// The first bytes of a file, so many, or all of it where it is shorter.
pub fn read_file(name: &OsStr, most: usize) -> Result<Vec<u8>, Status> {
    let mut bytes = Vec::new();
    let done = File::open(name).and_then(|file| file.take(most as u64).read_to_end(&mut bytes));
    done.map(|_| bytes).map_err(|error| failed(&name.to_string_lossy(), &error))
}
