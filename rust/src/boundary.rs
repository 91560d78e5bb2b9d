//! The eight C functions of the proved library over slices: the one place with unsafe code.
//!
//! Each function answers one word (docs/FORMAT.md, "The state's bytes and the C boundary"): bits 0 to 7 hold 0 or the number of the
//! refusal, the bits above what a call that was done answers, or what 17 of putting back carries. Here the word is taken apart and nothing
//! more: a state is a slice of any length and a refusal a number, so that the tests, which have this file too, can ask for 200 and 201.

extern "C" {
    fn zomuwedli_read(sheet: *const u8, sheet_length: usize) -> u64;
    fn zomuwedli_run(
        sheet: *const u8,
        sheet_length: usize,
        trace: *mut u8,
        trace_length: usize,
        state: *mut u8,
        state_length: usize,
    ) -> u64;
    fn zomuwedli_start(sheet: *const u8, sheet_length: usize, state: *mut u8, state_length: usize) -> u64;
    fn zomuwedli_hand_call(sheet: *const u8, sheet_length: usize, state: *mut u8, state_length: usize, item: u64) -> u64;
    fn zomuwedli_put_back(
        sheet: *const u8,
        sheet_length: usize,
        trace: *const u8,
        trace_length: usize,
        plan: *const u8,
        plan_length: usize,
        result: *mut u8,
        result_length: usize,
    ) -> u64;
    fn zomuwedli_pick(
        sheet: *const u8,
        sheet_length: usize,
        trace: *mut u8,
        trace_length: usize,
        plan: *mut u8,
        plan_length: usize,
        state: *mut u8,
        state_length: usize,
    ) -> u64;
    fn zomuwedli_colour(file: *const u8, file_length: usize, channels: u64, sheet: *mut u8, sheet_length: usize) -> u64;
    fn zomuwedli_move(sheet: *const u8, sheet_length: usize, target: *mut u8, target_length: usize) -> u64;
}

/// The number of items and the number of blocks.
pub fn read(sheet: &[u8]) -> Result<(u8, u16), u8> {
    // SAFETY: the pointer and length are of one live slice, which the function only reads.
    let word = unsafe { zomuwedli_read(sheet.as_ptr(), sheet.len()) };
    let fields = taken(word, 32)?;
    Ok((fields as u8, (fields >> 8) as u16))
}

/// The end, the number of steps and the bytes written.
pub fn run(sheet: &[u8], trace: &mut [u8], state: &mut [u8]) -> Result<(u8, u16, u16), u8> {
    // SAFETY: each pointer and length are of one live slice; the two that are written are lent as mutable, so that none overlaps them.
    let word = unsafe { zomuwedli_run(sheet.as_ptr(), sheet.len(), trace.as_mut_ptr(), trace.len(), state.as_mut_ptr(), state.len()) };
    taken(word, 48).map(run_fields)
}

/// The end, the number of steps and the bytes written of an answer's fields.
fn run_fields(fields: u64) -> (u8, u16, u16) {
    (fields as u8, (fields >> 8) as u16, (fields >> 24) as u16)
}

/// Nothing but that it was done.
pub fn start(sheet: &[u8], state: &mut [u8]) -> Result<(), u8> {
    // SAFETY: each pointer and length are of one live slice; the one that is written is lent as mutable, so that none overlaps it.
    let word = unsafe { zomuwedli_start(sheet.as_ptr(), sheet.len(), state.as_mut_ptr(), state.len()) };
    taken(word, 8).map(|_| ())
}

/// The setting v.
pub fn hand_call(sheet: &[u8], state: &mut [u8], item: u64) -> Result<u8, u8> {
    // SAFETY: each pointer and length are of one live slice; the one that is written is lent as mutable, so that none overlaps it.
    let word = unsafe { zomuwedli_hand_call(sheet.as_ptr(), sheet.len(), state.as_mut_ptr(), state.len(), item) };
    taken(word, 16).map(|fields| fields as u8)
}

/// Why putting back was refused.
#[derive(Clone, Copy, PartialEq, Eq, Debug)]
pub enum PutBackFault {
    /// By a number other than 17, which has nothing beside it.
    Number(u8),
    /// By 17.
    Unlawful { record: u16, item: u8, setting: u8 },
}

/// Nothing but that it was done.
pub fn put_back(sheet: &[u8], trace: &[u8], plan: &[u8], result: &mut [u8]) -> Result<(), PutBackFault> {
    // SAFETY: each pointer and length are of one live slice; the one that is written is lent as mutable, so that none overlaps it.
    let word = unsafe {
        zomuwedli_put_back(
            sheet.as_ptr(),
            sheet.len(),
            trace.as_ptr(),
            trace.len(),
            plan.as_ptr(),
            plan.len(),
            result.as_mut_ptr(),
            result.len(),
        )
    };
    put_back_taken(word)
}

/// The word that putting back answers, taken apart: 17 alone has fields, up to bit 39.
pub fn put_back_taken(word: u64) -> Result<(), PutBackFault> {
    const UNLAWFUL: u8 = 17;
    if word as u8 == UNLAWFUL && word >> 40 == 0 {
        return Err(PutBackFault::Unlawful { record: (word >> 8) as u16, item: (word >> 24) as u8, setting: (word >> 32) as u8 });
    }
    taken(word, 8).map(|_| ()).map_err(PutBackFault::Number)
}

/// The end, the number of steps and the bytes written of the run, and whether a plan was written.
pub fn pick(sheet: &[u8], trace: &mut [u8], plan: &mut [u8], state: &mut [u8]) -> Result<((u8, u16, u16), bool), u8> {
    // SAFETY: each pointer and length are of one live slice; the three that are written are lent as mutable, so that none overlaps them.
    let word = unsafe {
        zomuwedli_pick(
            sheet.as_ptr(),
            sheet.len(),
            trace.as_mut_ptr(),
            trace.len(),
            plan.as_mut_ptr(),
            plan.len(),
            state.as_mut_ptr(),
            state.len(),
        )
    };
    let fields = taken(word, 49)?;
    Ok((run_fields(fields), fields >> 40 == 1))
}

/// The bytes written.
pub fn colour(file: &[u8], channels: u64, sheet: &mut [u8]) -> Result<u32, u8> {
    // SAFETY: each pointer and length are of one live slice; the one that is written is lent as mutable, so that none overlaps it.
    let word = unsafe { zomuwedli_colour(file.as_ptr(), file.len(), channels, sheet.as_mut_ptr(), sheet.len()) };
    sheet_written(word)
}

/// The bytes written.
pub fn move_sheet(sheet: &[u8], target: &mut [u8]) -> Result<u32, u8> {
    // SAFETY: each pointer and length are of one live slice; the one that is written is lent as mutable, so that none overlaps it.
    let word = unsafe { zomuwedli_move(sheet.as_ptr(), sheet.len(), target.as_mut_ptr(), target.len()) };
    sheet_written(word)
}

/// The bytes written of an answer of a job that writes a sheet.
fn sheet_written(word: u64) -> Result<u32, u8> {
    taken(word, 32).map(|fields| fields as u32)
}

/// The fields of an answer above its low byte, none from bit `end` on; or the number of the refusal, which has no field beside it.
fn taken(word: u64, end: u32) -> Result<u64, u8> {
    match (word as u8, word >> 8) {
        (0, fields) if word >> end == 0 => Ok(fields),
        (number, 0) if number != 0 => Err(number),
        // The library never answers so; a wrapper that guessed would hide that it did.
        _ => panic!("the library answered {word:#018x}, which is no answer of this call"),
    }
}
