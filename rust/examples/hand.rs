//! Takes items out by hand: starts, makes a hand call for each item named, in turn, and prints what each answered and the state left. A
//! refused call leaves the state as it was, and the next one goes on from there.
//!
//!     cargo run --example hand ../examples/F.sheet 0 2
//!
//! A line for each call, `hand ITEM setting V` or `hand ITEM refused NUMBER`; then `left`, the number of items in and of settings on; then,
//! for each item in, `item I on` and its settings on. A sheet that is refused prints `refused NUMBER` alone.

mod common;

use std::ffi::{OsStr, OsString};
use std::process::ExitCode;

use common::{explain, line, number, read_sheet, refuse, usage, Status};
use zomuwedli::{hand_call, start, HandState, State};

/// The item is printed as it was named.
fn print_call(sheet: &[u8], state: &mut HandState, name: &OsStr, item: u64, text: &mut Vec<u8>) -> Result<(), Status> {
    let call = format!("hand {}", name.to_string_lossy());
    match hand_call(sheet, state, item) {
        Ok(taken) => {
            line(text, call + " setting", [taken.setting]);
            Ok(())
        }
        Err(refusal) => {
            line(text, call + " refused", [refusal.number()]);
            Err(explain("item", name, refusal))
        }
    }
}

fn print_left(state: &State, text: &mut Vec<u8>) {
    line(text, "left", [state.count_items(), state.count_settings()]);
    for item in state.items() {
        line(text, format_args!("item {item} on"), state.settings(item));
    }
}

fn work(arguments: &[OsString], text: &mut Vec<u8>) -> Result<(), Status> {
    let usage = || usage("SHEET [ITEM]...");
    let [name, items @ ..] = arguments else { return Err(usage()) };
    let numbers: Vec<u64> = items.iter().map(|item| number(item)).collect::<Option<_>>().ok_or_else(usage)?;
    let sheet = read_sheet(name)?;
    let mut state = start(&sheet).map_err(|refusal| refuse(name, refusal, text))?;
    let mut done = Ok(());
    for (item, &number) in items.iter().zip(&numbers) {
        done = done.and(print_call(&sheet, &mut state, item, number, text));
    }
    print_left(state.state(), text);
    done
}

fn main() -> ExitCode {
    common::main(work)
}
