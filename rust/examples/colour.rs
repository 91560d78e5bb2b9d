//! Writes the sheet of a graph colouring file and a number of channels to standard output. Its plans are the proper colourings.
//!
//!     cargo run --example colour ../examples/petersen.col 3 >petersen-3.sheet
//!     cargo run --example plan petersen-3.sheet

mod common;

use std::ffi::OsString;
use std::process::ExitCode;

use common::{number, read_file, refuse_for, usage, Status};
use zomuwedli::{colour, MAX_FILE, MAX_SHEET};

/// One byte more than the longest colouring file has, so that a longer one is refused and not cut to one that is taken.
const FILE_ROOM: usize = MAX_FILE + 1;

fn work(arguments: &[OsString], output: &mut Vec<u8>) -> Result<(), Status> {
    let usage = || usage("FILE CHANNELS");
    let [name, channels] = arguments else { return Err(usage()) };
    let channels = number(channels).ok_or_else(usage)?;
    let file = read_file(name, FILE_ROOM)?;
    let mut sheet = [0; MAX_SHEET];
    let written = colour(&file, channels, &mut sheet).map_err(|refusal| refuse_for("file", name, refusal, output))?;
    output.extend(&sheet[..written.bytes]);
    Ok(())
}

fn main() -> ExitCode {
    common::main(work)
}
