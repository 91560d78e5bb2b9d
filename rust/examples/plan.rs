//! From a sheet to a finished plan, in one call: prints the setting of each item, or that the sheet has no plan.
//!
//!     cargo run --example plan ../examples/F.sheet

mod common;

use std::ffi::OsString;
use std::process::ExitCode;

use common::{line, read_sheet, refuse, usage, Status};
use zomuwedli::{pick, Refusal, MAX_ITEMS, MAX_TRACE};

/// A plan of the sheet, if there is one. The tests find plans by it too (tests/colour.rs).
pub fn plan_of(sheet: &[u8]) -> Result<Option<Vec<u8>>, Refusal> {
    // Byte 5 of a sheet counts its items, and the plan has a byte for each; where it is missing or counts too many, the sheet is refused.
    let items = sheet.get(5).map_or(0, |&items| usize::from(items).min(MAX_ITEMS));
    let mut plan = [0; MAX_ITEMS];
    let picked = pick(sheet, &mut [0; MAX_TRACE], &mut plan[..items])?;
    Ok(picked.has_plan.then(|| plan[..items].to_vec()))
}

fn work(arguments: &[OsString], text: &mut Vec<u8>) -> Result<(), Status> {
    let [name] = arguments else { return Err(usage("SHEET")) };
    let sheet = read_sheet(name)?;
    match plan_of(&sheet).map_err(|refusal| refuse(name, refusal, text))? {
        Some(plan) => line(text, "plan", plan),
        None => line::<u8>(text, "no plan", []),
    }
    Ok(())
}

fn main() -> ExitCode {
    common::main(work)
}
