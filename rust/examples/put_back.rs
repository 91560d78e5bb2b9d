//! Puts a lent trace back: from a sheet, a trace, whoever wrote it, and a plan for the items left, the plan of the full sheet. The plan is
//! named item by item, 255 for an item that is out. After `refused 17` stand the record's number, from 0, and the item where its cover
//! breaks and the setting that spoils it, or 255 and 255.
//!
//!     cargo run --example put_back ../examples/B.sheet ../examples/B.trace 255 255

mod common;

use std::ffi::{OsStr, OsString};
use std::process::ExitCode;

use common::{explain, line, number, read_file, read_sheet, usage, Status};
use zomuwedli::{put_back, PutBackRefusal, MAX_TRACE};

/// One record more than the longest lawful trace has: the first fault of a longer file stands within it.
const TRACE_ROOM: usize = MAX_TRACE + 5;

/// The one line that is then printed: the number and, with 17, what it carries.
fn refuse(sheet: &OsStr, refused: PutBackRefusal, text: &mut Vec<u8>) -> Status {
    let carried = refused.unlawful.map(|unlawful| [unlawful.record, unlawful.item.into(), unlawful.setting.into()]);
    line(text, "refused", std::iter::once(refused.refusal.number().into()).chain(carried.into_iter().flatten()));
    explain("sheet", sheet, refused)
}

fn work(arguments: &[OsString], text: &mut Vec<u8>) -> Result<(), Status> {
    let usage = || usage("SHEET TRACE [SETTING]...");
    let [name, trace, plan @ ..] = arguments else { return Err(usage()) };
    let plan: Vec<u8> = plan.iter().map(|setting| number(setting)).collect::<Option<_>>().ok_or_else(usage)?;
    let (sheet, trace) = (read_sheet(name)?, read_file(trace, TRACE_ROOM)?);
    // As long as the plan: where that is not one byte for each item, the plan is refused first.
    let mut full = vec![0; plan.len()];
    put_back(&sheet, &trace, &plan, &mut full).map_err(|refused| refuse(name, refused, text))?;
    line(text, "plan", full);
    Ok(())
}

fn main() -> ExitCode {
    common::main(work)
}
