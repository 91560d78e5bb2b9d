//! Writes a sheet in its other version to standard output: version 2 of a sheet of version 1, and version 1 of a sheet of version 2.
//!
//!     cargo run --example move ../examples/F.sheet >F.moved
//!     cargo run --example plan F.moved

mod common;

use std::ffi::OsString;
use std::process::ExitCode;

use common::{read_sheet, refuse, usage, Status};
use zomuwedli::{move_sheet, MAX_SHEET};

fn work(arguments: &[OsString], output: &mut Vec<u8>) -> Result<(), Status> {
    let [name] = arguments else { return Err(usage("SHEET")) };
    let sheet = read_sheet(name)?;
    let mut target = [0; MAX_SHEET];
    let written = move_sheet(&sheet, &mut target).map_err(|refusal| refuse(name, refusal, output))?;
    output.extend(&target[..written.bytes]);
    Ok(())
}

fn main() -> ExitCode {
    common::main(work)
}
