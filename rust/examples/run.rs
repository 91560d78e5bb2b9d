//! Reads a sheet from a file, runs it, and prints what the program reduce_sheet prints.
//!
//!     cargo run --example run ../examples/B.sheet

mod common;

use std::ffi::OsString;
use std::process::ExitCode;

use common::{line, read_sheet, refuse, usage, Status};
use zomuwedli::{records, run, MAX_TRACE};

fn work(arguments: &[OsString], text: &mut Vec<u8>) -> Result<(), Status> {
    let [name] = arguments else { return Err(usage("SHEET")) };
    let sheet = read_sheet(name)?;
    let mut trace = [0; MAX_TRACE];
    let run = run(&sheet, &mut trace).map_err(|refusal| refuse(name, refusal, text))?;
    // Byte 5 of a sheet is its number of items, and the sizes stand from byte 8 on.
    let items = usize::from(sheet[5]);
    let sizes = sheet[8..8 + items].iter().map(|&size| usize::from(size));
    line(text, "sheet", [items, sizes.sum()]);
    let steps = records(&trace[..run.written]).map_err(|refusal| refuse(name, refusal, text))?;
    for (number, step) in (1..).zip(steps) {
        let step = step.map_err(|refusal| refuse(name, refusal, text))?;
        line(text, number, [step]);
    }
    line(text, run.end, [run.steps, run.state.count_items(), run.state.count_settings()]);
    Ok(())
}

fn main() -> ExitCode {
    common::main(work)
}
